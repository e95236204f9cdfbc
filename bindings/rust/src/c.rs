//! `include/mtrecover.h`, as it is.

use core::cell::UnsafeCell;
use core::ffi::c_void;
use core::marker::PhantomData;
use core::ptr;

pub const DONE: u32 = 0;
pub const MEMORY: u32 = 1;
pub const WRONG: u32 = 2;
pub const ABSENT: u32 = 3;
pub const SHORT: u32 = 4;
pub const FAULT: u32 = 5;
pub const EARLY: u32 = 6;
pub const FULL: u32 = 7;
pub const FAILED: u32 = 8;

/// What `mtr_place` is in C.
#[derive(Debug)]
#[repr(C)]
pub struct RawPlace {
    at: *mut c_void,
    full: bool,
}

/// A place, which its owner frees. Calls change it behind a shared reference, one at a time: it is not `Sync`.
#[derive(Debug)]
pub struct Place(UnsafeCell<RawPlace>);

impl Place {
    pub const fn empty() -> Place {
        Place(UnsafeCell::new(RawPlace { at: ptr::null_mut(), full: false }))
    }

    pub fn raw(&self) -> *mut RawPlace {
        self.0.get()
    }
}

impl Drop for Place {
    fn drop(&mut self) {
        // SAFETY: a place may be freed whatever it holds.
        unsafe { mtr_free(self.raw()) }
    }
}

// SAFETY: any thread may call the library, and a place keeps nothing that belongs to a thread.
unsafe impl Send for Place {}

#[repr(C)]
#[derive(Clone, Copy, Default)]
pub struct RawFault {
    pub kind: u32,
    pub what: u32,
    pub index: u64,
    pub record: u64,
}

#[repr(C)]
#[derive(Clone, Copy, Default)]
pub struct RawReport {
    pub cutoff: u64,
    pub last: u64,
    pub version: u64,
    pub checkpoint: u64,
    pub begin: u64,
    pub entries: u64,
    pub logs: u64,
    pub writers: u64,
    pub records: u64,
    pub marks: u64,
    pub torn: u64,
    pub holes: u64,
    pub skipped: u64,
    pub nameless: u64,
    pub early: u64,
    pub late: u64,
    pub survivors: u64,
    pub keys: u64,
    pub layers: u64,
}

#[repr(C)]
#[derive(Clone, Copy, Default)]
pub struct RawResumed {
    pub dropped: u64,
    pub late_marks: u64,
    pub format: u32,
    pub changed: bool,
    pub ended: bool,
}

#[repr(C)]
#[derive(Clone, Copy, Default)]
pub struct RawLogEnding {
    pub from: u64,
    pub last: u64,
    pub torn: bool,
    pub goes_on: bool,
}

#[repr(C)]
#[derive(Clone, Copy, Default)]
pub struct RawVersions {
    pub library: u32,
    pub log_format: u32,
    pub part_format: u32,
}

/// Bytes of a place, lent until the next call that is given the place.
#[repr(C)]
#[derive(Clone, Copy)]
pub struct RawLent {
    pub at: *const u8,
    pub length: usize,
}

/// The header of a log.
#[repr(C)]
#[derive(Clone, Copy, Default)]
#[allow(dead_code)]
pub struct RawLogFront {
    pub format: u32,
    pub worker: u32,
    pub segment: u32,
    pub workers: u32,
    pub from: u64,
    pub salt: u64,
    pub length: usize,
}

/// The header of a part.
#[repr(C)]
#[allow(dead_code)]
pub struct RawPartFront {
    pub format: u32,
    pub number: u32,
    pub part: u32,
    pub parts: u32,
    pub begin: u64,
    pub salt: u64,
    pub length: usize,
}

/// A column to be written: its number and its value.
#[repr(C)]
#[derive(Clone, Copy, Debug)]
pub struct Column<'a> {
    number: u8,
    at: *const u8,
    length: usize,
    value: PhantomData<&'a [u8]>,
}

impl<'a> Column<'a> {
    /// The column of this number and value.
    pub fn new(number: u8, value: &'a [u8]) -> Column<'a> {
        Column { number, at: value.as_ptr(), length: value.len(), value: PhantomData }
    }

    /// The length of its value.
    #[cfg(feature = "host")]
    pub(crate) fn length(&self) -> usize {
        self.length
    }
}

// The crate does without some of them.
#[allow(dead_code)]
extern "C" {
    pub fn mtr_feed_log(feed: *mut RawPlace) -> u32;
    pub fn mtr_feed_part(feed: *mut RawPlace) -> u32;
    pub fn mtr_feed(feed: *mut RawPlace, chunk: *const u8, length: usize) -> u32;
    pub fn mtr_feed_failed(feed: *mut RawPlace) -> u32;
    pub fn mtr_add(inputs: *mut RawPlace, feed: *mut RawPlace) -> u32;
    pub fn mtr_recover(inputs: *mut RawPlace, fault: *mut RawFault) -> u32;
    pub fn mtr_prepare(inputs: *mut RawPlace, threads: u32, fault: *mut RawFault) -> u32;
    pub fn mtr_hire(job: *mut RawPlace, worker: *mut RawPlace) -> u32;
    pub fn mtr_work(worker: *mut RawPlace) -> u32;
    pub fn mtr_join(job: *mut RawPlace, worker: *mut RawPlace) -> u32;
    pub fn mtr_replay(job: *mut RawPlace) -> u32;
    pub fn mtr_assemble(job: *mut RawPlace) -> u32;
    pub fn mtr_get_report(store: *mut RawPlace, report: *mut RawReport) -> u32;
    pub fn mtr_report_end(store: *mut RawPlace, log: usize, end: *mut u64) -> u32;
    pub fn mtr_report_skipped(store: *mut RawPlace, i: usize, number: *mut u64) -> u32;
    pub fn mtr_report_nameless(store: *mut RawPlace, i: usize, part: *mut u64) -> u32;
    pub fn mtr_resume_log(
        log: *const u8,
        length: usize,
        cutoff: u64,
        salt: u64,
        workers: u32,
        resumed: *mut RawResumed,
        out: *mut u8,
        room: usize,
        count: *mut usize,
    ) -> u32;
    pub fn mtr_read_log_ending(log: *const u8, length: usize, ending: *mut RawLogEnding) -> u32;
    pub fn mtr_exists(store: *mut RawPlace, key: *const u8, key_length: usize) -> u32;
    pub fn mtr_get(
        store: *mut RawPlace,
        key: *const u8,
        key_length: usize,
        column: u8,
        out: *mut u8,
        room: usize,
        count: *mut usize,
    ) -> u32;
    pub fn mtr_range(store: *mut RawPlace, start: *const u8, start_length: usize, n: usize, hits: *mut RawPlace)
        -> u32;
    pub fn mtr_hit(
        hits: *mut RawPlace,
        i: usize,
        columns: *mut usize,
        out: *mut u8,
        room: usize,
        count: *mut usize,
    ) -> u32;
    pub fn mtr_hit_column(
        hits: *mut RawPlace,
        i: usize,
        nth: usize,
        number: *mut u8,
        out: *mut u8,
        room: usize,
        count: *mut usize,
    ) -> u32;
    pub fn mtr_pair(
        store: *mut RawPlace,
        key: *const u8,
        key_length: usize,
        out: *mut u8,
        room: usize,
        count: *mut usize,
    ) -> u32;
    pub fn mtr_dump(
        store: *mut RawPlace,
        start: *const u8,
        start_length: usize,
        out: *mut u8,
        room: usize,
        count: *mut usize,
        pairs: *mut usize,
    ) -> u32;
    pub fn mtr_dump_until(
        store: *mut RawPlace,
        start: *const u8,
        start_length: usize,
        end: *const u8,
        end_length: usize,
        out: *mut u8,
        room: usize,
        count: *mut usize,
        pairs: *mut usize,
    ) -> u32;
    pub fn mtr_cut_key(store: *mut RawPlace, i: usize, n: usize, out: *mut u8, room: usize, count: *mut usize) -> u32;
    pub fn mtr_share(store: *mut RawPlace, other: *mut RawPlace) -> u32;
    pub fn mtr_free(place: *mut RawPlace);
    pub fn mtr_fault_text(fault: *const RawFault, out: *mut u8, room: usize, count: *mut usize) -> u32;
    pub fn mtr_status_text(status: u32, out: *mut u8, room: usize, count: *mut usize) -> u32;
    pub fn mtr_version(versions: *mut RawVersions);
    pub fn mtr_read_log_header(bytes: *const u8, length: usize, front: *mut RawLogFront) -> u32;
    pub fn mtr_read_part_header(bytes: *const u8, length: usize, front: *mut RawPartFront) -> u32;
    pub fn mtr_log_header(format: u32, from: u64, out: *mut u8, room: usize, count: *mut usize) -> u32;
    pub fn mtr_segment_header(
        from: u64,
        worker: u32,
        segment: u32,
        out: *mut u8,
        room: usize,
        count: *mut usize,
    ) -> u32;
    pub fn mtr_log_header_4(
        salt: u64,
        worker: u32,
        segment: u32,
        workers: u32,
        from: u64,
        out: *mut u8,
        room: usize,
        count: *mut usize,
        mark: *mut u32,
    ) -> u32;
    pub fn mtr_part_header_4(
        salt: u64,
        number: u32,
        begin: u64,
        part: u16,
        parts: u16,
        out: *mut u8,
        room: usize,
        count: *mut usize,
        mark: *mut u32,
    ) -> u32;
    pub fn mtr_seal(mark: u32, body: *const u8, length: usize, out: *mut u8, room: usize, count: *mut usize) -> u32;
    pub fn mtr_mark(time: u64, out: *mut u8, room: usize, count: *mut usize) -> u32;
    pub fn mtr_put(
        format: u32,
        time: u64,
        version: u64,
        key: *const u8,
        key_length: usize,
        columns: *const Column,
        column_count: usize,
        out: *mut u8,
        room: usize,
        count: *mut usize,
    ) -> u32;
    pub fn mtr_remove(
        format: u32,
        time: u64,
        version: u64,
        key: *const u8,
        key_length: usize,
        out: *mut u8,
        room: usize,
        count: *mut usize,
    ) -> u32;
    pub fn mtr_erase(
        format: u32,
        time: u64,
        version: u64,
        key: *const u8,
        key_length: usize,
        numbers: *const u8,
        number_count: usize,
        out: *mut u8,
        room: usize,
        count: *mut usize,
    ) -> u32;
    pub fn mtr_part_header(
        format: u32,
        number: u32,
        begin: u64,
        part: u16,
        parts: u16,
        out: *mut u8,
        room: usize,
        count: *mut usize,
    ) -> u32;
    pub fn mtr_entry(
        format: u32,
        version: u64,
        key: *const u8,
        key_length: usize,
        columns: *const Column,
        column_count: usize,
        out: *mut u8,
        room: usize,
        count: *mut usize,
    ) -> u32;
    pub fn mtr_part_footer(end: u64, entries: u32, out: *mut u8, room: usize, count: *mut usize) -> u32;
    pub fn mtr_keeper_begin(keeper: *mut RawPlace, salt: u64) -> u32;
    pub fn mtr_keeper_failed(keeper: *mut RawPlace) -> u32;
    pub fn mtr_keeper_acknowledged(keeper: *mut RawPlace, below: *mut u64) -> u32;
    pub fn mtr_keeper_resume(keeper: *mut RawPlace, store: *mut RawPlace, number: u32, salt: u64) -> u32;
    pub fn mtr_keeper_add(keeper: *mut RawPlace, log: *const u8, length: usize, number: *mut usize) -> u32;
    pub fn mtr_keeper_resumed(keeper: *mut RawPlace) -> u32;
    pub fn mtr_keeper_lend(keeper: *mut RawPlace) -> u32;
    pub fn mtr_crew_hire(crew: *mut RawPlace, worker: *mut RawPlace) -> u32;
    pub fn mtr_crew_join(crew: *mut RawPlace, worker: *mut RawPlace) -> u32;
    pub fn mtr_crew_close(crew: *mut RawPlace) -> u32;
    pub fn mtr_worker_log(worker: *mut RawPlace, log: *mut usize) -> u32;
    pub fn mtr_worker_put(
        worker: *mut RawPlace,
        key: *const u8,
        key_length: usize,
        columns: *const Column,
        column_count: usize,
        stamp: *mut u64,
    ) -> u32;
    pub fn mtr_worker_remove(worker: *mut RawPlace, key: *const u8, key_length: usize, stamp: *mut u64) -> u32;
    pub fn mtr_worker_erase(
        worker: *mut RawPlace,
        key: *const u8,
        key_length: usize,
        numbers: *const u8,
        number_count: usize,
        stamp: *mut u64,
    ) -> u32;
    pub fn mtr_worker_mark(worker: *mut RawPlace) -> u32;
    pub fn mtr_worker_take(worker: *mut RawPlace, buffer: *mut RawPlace, lent: *mut RawLent) -> u32;
    pub fn mtr_worker_synced(worker: *mut RawPlace) -> u32;
    pub fn mtr_worker_failed(worker: *mut RawPlace) -> u32;
    pub fn mtr_worker_acknowledged(worker: *mut RawPlace, below: *mut u64) -> u32;
    pub fn mtr_log_begin(keeper: *mut RawPlace, log: *mut usize) -> u32;
    pub fn mtr_log_rotate(keeper: *mut RawPlace, log: usize, next: *mut usize) -> u32;
    pub fn mtr_log_segment(keeper: *mut RawPlace, log: usize, worker: *mut u32, segment: *mut u32) -> u32;
    pub fn mtr_log_bytes(keeper: *mut RawPlace, log: usize, out: *mut u8, room: usize, count: *mut usize) -> u32;
    pub fn mtr_log_created(keeper: *mut RawPlace, log: usize) -> u32;
    pub fn mtr_log_put(
        keeper: *mut RawPlace,
        log: usize,
        key: *const u8,
        key_length: usize,
        columns: *const Column,
        column_count: usize,
        stamp: *mut u64,
    ) -> u32;
    pub fn mtr_log_remove(keeper: *mut RawPlace, log: usize, key: *const u8, key_length: usize, stamp: *mut u64)
        -> u32;
    pub fn mtr_log_erase(
        keeper: *mut RawPlace,
        log: usize,
        key: *const u8,
        key_length: usize,
        numbers: *const u8,
        number_count: usize,
        stamp: *mut u64,
    ) -> u32;
    pub fn mtr_log_mark(keeper: *mut RawPlace, log: usize) -> u32;
    pub fn mtr_log_take(keeper: *mut RawPlace, log: usize, buffer: *mut RawPlace, lent: *mut RawLent) -> u32;
    pub fn mtr_log_synced(keeper: *mut RawPlace, log: usize) -> u32;
    pub fn mtr_log_delete(keeper: *mut RawPlace, log: *mut usize) -> u32;
    pub fn mtr_log_deleted(keeper: *mut RawPlace, log: usize) -> u32;
    pub fn mtr_checkpoint_begin(keeper: *mut RawPlace, number: *mut u32, begin: *mut u64) -> u32;
    pub fn mtr_checkpoint_end(keeper: *mut RawPlace, end: *mut u64) -> u32;
    pub fn mtr_checkpoint_stand(keeper: *mut RawPlace) -> u32;
    pub fn mtr_checkpoint_abandon(keeper: *mut RawPlace) -> u32;
    pub fn mtr_part_begin(writer: *mut RawPlace, salt: u64, number: u32, begin: u64, part: u16, parts: u16) -> u32;
    pub fn mtr_part_begin_above(
        writer: *mut RawPlace,
        salt: u64,
        number: u32,
        begin: u64,
        part: u16,
        parts: u16,
        above: *const u8,
        above_length: usize,
    ) -> u32;
    pub fn mtr_part_entry(
        writer: *mut RawPlace,
        version: u64,
        key: *const u8,
        key_length: usize,
        columns: *const Column,
        column_count: usize,
    ) -> u32;
    pub fn mtr_part_end(writer: *mut RawPlace, end: u64) -> u32;
    pub fn mtr_part_take(writer: *mut RawPlace, buffer: *mut RawPlace, lent: *mut RawLent) -> u32;
}
