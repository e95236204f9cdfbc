//! Encodings: single records, blocks, entries and headers, which these functions append to the bytes that a server writes.
//!
//! Each function with the parameter `out` appends its bytes to the end of `out`. If it returns an `Err`, `out` is as before.

use alloc::vec::Vec;

use crate::c::{self, RawLogEnding, RawLogFront, RawResumed};
use crate::inputs::done;
use crate::{OutOfMemory, WriteError};

pub use crate::c::Column;

/// What the records of a log, or the entries of a part, may have. Segments, and all files of format 4, have the records and
/// entries of format 2.
#[derive(Clone, Copy, Debug, PartialEq, Eq)]
pub enum Format {
    /// Format 1: keys have at most 1,024 bytes, columns have the numbers 0 to 15, and there are no erases.
    One = 1,
    /// Format 2: keys have at most 4,096 bytes, columns have the numbers 0 to 63, and logs may have erases.
    Two,
}

/// The number with which each block of one file of format 4 begins. [`log_header_4`] and [`part_header_4`] return it. It has
/// nothing to do with the records that are called marks ([`mark`]).
#[derive(Clone, Copy, Debug, PartialEq, Eq)]
pub struct Mark(u32);

/// What happened to a log when [`resume_log`] made the bytes that replace it.
#[derive(Clone, Copy, Debug, PartialEq, Eq)]
#[non_exhaustive]
pub struct Resumed {
    /// How many updates of the log were dropped, because they are at or past the cutoff.
    pub dropped: u64,
    /// How many marks of the log were dropped, because they are at or past the cutoff. A mark at 2^64 - 1 does not count. A
    /// crash leaves few such marks.
    pub late_marks: u64,
    /// The format in which further records of the log are written.
    pub format: Format,
    /// Whether the new bytes differ from the bytes of the log. For a log of format 4 they always do.
    pub changed: bool,
    /// Whether a mark at 2^64 - 1 ends the new bytes. Then write further records to another log.
    pub ended: bool,
}

/// Appends the bytes that `call` writes. `call` gets a place for the bytes, the number of bytes that have room there, and a
/// place for their count. If the room is too small, `append` makes room and calls it again. Returns the last status.
pub(crate) fn append(out: &mut Vec<u8>, mut call: impl FnMut(*mut u8, usize, *mut usize) -> u32) -> u32 {
    let mut count = 0;
    loop {
        let rest = out.spare_capacity_mut();
        let status = call(rest.as_mut_ptr().cast(), rest.len(), &mut count);
        match status {
            c::SHORT => out.reserve(count),
            c::DONE => {
                // SAFETY: the call wrote these bytes behind the others.
                unsafe { out.set_len(out.len() + count) };
                return c::DONE;
            }
            _ => return status,
        }
    }
}

/// Appends the bytes that `call` writes, as [`append`] does, and turns its status into an error.
fn write(out: &mut Vec<u8>, call: impl FnMut(*mut u8, usize, *mut usize) -> u32) -> Result<(), WriteError> {
    match append(out, call) {
        c::DONE => Ok(()),
        c::MEMORY => Err(WriteError::OutOfMemory),
        c::WRONG => Err(WriteError::NotLawful),
        c::FAULT => Err(WriteError::NoLog),
        status => unreachable!("status {status}"),
    }
}

/// Appends the header of a log that is no segment. Updates below the timestamp `from` may be missing from the log.
pub fn log_header(out: &mut Vec<u8>, format: Format, from: u64) -> Result<(), OutOfMemory> {
    // SAFETY: slices are lent for the call, and `append` says where and how much may be written.
    done(append(out, |at, room, count| unsafe { c::mtr_log_header(format as u32, from, at, room, count) }))
}

/// Appends the header of a segment of format 3. `worker` is the number of the worker whose log it is, and `segment` is the
/// number of the segment. Updates below the timestamp `from` may be missing from the segment.
pub fn segment_header(out: &mut Vec<u8>, from: u64, worker: u32, segment: u32) -> Result<(), OutOfMemory> {
    // SAFETY: slices are lent for the call, and `append` says where and how much may be written.
    done(append(out, |at, room, count| unsafe { c::mtr_segment_header(from, worker, segment, at, room, count) }))
}

/// Appends the header of a log of format 4, and returns the mark of its blocks. Such a log is a segment of a worker's log. The
/// records of the log go into blocks ([`seal`]), and may be cut into blocks anywhere.
/// - `salt` is a random number, which must be new for each file.
/// - `worker` is the number of the worker whose log it is, and `segment` is the number of the segment.
/// - `workers` is the number of workers that have a file in the folder, this worker included. If a later start finds files of
///   fewer workers, all files of a worker are lost.
/// - `from` is a timestamp: updates below it may be missing from the segment.
pub fn log_header_4(
    out: &mut Vec<u8>,
    salt: u64,
    worker: u32,
    segment: u32,
    workers: u32,
    from: u64,
) -> Result<Mark, OutOfMemory> {
    let mut mark = 0;
    // SAFETY: slices are lent for the call, and `append` says where and how much may be written.
    done(append(out, |at, room, count| unsafe {
        c::mtr_log_header_4(salt, worker, segment, workers, from, at, room, count, &mut mark)
    }))?;
    Ok(Mark(mark))
}

/// Appends a block with this body, for the file whose blocks have this mark. `NotLawful`: the body has more than 2^23 bytes.
pub fn seal(out: &mut Vec<u8>, mark: Mark, body: &[u8]) -> Result<(), WriteError> {
    // SAFETY: slices are lent for the call, and `append` says where and how much may be written.
    write(out, |at, room, count| unsafe { c::mtr_seal(mark.0, body.as_ptr(), body.len(), at, room, count) })
}

/// Appends a mark: a record that has only the timestamp `time`, and says that its log reaches up to there.
pub fn mark(out: &mut Vec<u8>, time: u64) -> Result<(), OutOfMemory> {
    // SAFETY: slices are lent for the call, and `append` says where and how much may be written.
    done(append(out, |at, room, count| unsafe { c::mtr_mark(time, at, room, count) }))
}

/// Appends a put of these columns of the key, for a log of this format. `time` is the timestamp of the update, and `version`
/// is its version. The numbers of the columns must rise. `NotLawful`: no log of this format may have the record
/// ([`WriteError::NotLawful`]).
pub fn put(
    out: &mut Vec<u8>,
    format: Format,
    time: u64,
    version: u64,
    key: &[u8],
    columns: &[Column],
) -> Result<(), WriteError> {
    let (format, length, n) = (format as u32, key.len(), columns.len());
    // SAFETY: slices are lent for the call, and `append` says where and how much may be written.
    write(out, |at, room, count| unsafe {
        c::mtr_put(format, time, version, key.as_ptr(), length, columns.as_ptr(), n, at, room, count)
    })
}

/// Appends a remove of the key, for a log of this format. A remove takes all columns from the key. `time` is the timestamp of
/// the update, and `version` is its version. `NotLawful`: no log of this format may have the record
/// ([`WriteError::NotLawful`]).
pub fn remove(out: &mut Vec<u8>, format: Format, time: u64, version: u64, key: &[u8]) -> Result<(), WriteError> {
    // SAFETY: slices are lent for the call, and `append` says where and how much may be written.
    write(out, |at, room, count| unsafe {
        c::mtr_remove(format as u32, time, version, key.as_ptr(), key.len(), at, room, count)
    })
}

/// Appends an erase, for a log of this format. An erase takes the columns with these numbers from the key. The numbers must
/// rise. `time` is the timestamp of the update, and `version` is its version. `NotLawful`: no log of this format may have the
/// record ([`WriteError::NotLawful`]).
pub fn erase(
    out: &mut Vec<u8>,
    format: Format,
    time: u64,
    version: u64,
    key: &[u8],
    numbers: &[u8],
) -> Result<(), WriteError> {
    let (format, length, n) = (format as u32, key.len(), numbers.len());
    // SAFETY: slices are lent for the call, and `append` says where and how much may be written.
    write(out, |at, room, count| unsafe {
        c::mtr_erase(format, time, version, key.as_ptr(), length, numbers.as_ptr(), n, at, room, count)
    })
}

/// Appends the header of a part. The part is part `part`, counted from 0, of the `parts` parts of the checkpoint with the
/// number `number`. This checkpoint begins at the timestamp `begin`.
pub fn part_header(
    out: &mut Vec<u8>,
    format: Format,
    number: u32,
    begin: u64,
    part: u16,
    parts: u16,
) -> Result<(), OutOfMemory> {
    // SAFETY: slices are lent for the call, and `append` says where and how much may be written.
    done(append(out, |at, room, count| unsafe {
        c::mtr_part_header(format as u32, number, begin, part, parts, at, room, count)
    }))
}

/// Appends the header of a part of format 4, and returns the mark of its blocks. `salt` is a random number, which must be new
/// for each file. The other parameters are those of [`part_header`]. The entries and the footer of the part go into blocks
/// ([`seal`]), and may be cut into blocks anywhere.
pub fn part_header_4(
    out: &mut Vec<u8>,
    salt: u64,
    number: u32,
    begin: u64,
    part: u16,
    parts: u16,
) -> Result<Mark, OutOfMemory> {
    let mut mark = 0;
    // SAFETY: slices are lent for the call, and `append` says where and how much may be written.
    done(append(out, |at, room, count| unsafe {
        c::mtr_part_header_4(salt, number, begin, part, parts, at, room, count, &mut mark)
    }))?;
    Ok(Mark(mark))
}

/// Appends the entry of a key with these columns, for a part of this format. The numbers of the columns must rise. The keys of
/// a part must rise too, compared byte by byte. Ensure this yourself, because this function does not know the key before. A
/// [`PartWriter`](crate::keeper::PartWriter) does. `NotLawful`: no part of this format may have the entry
/// ([`WriteError::NotLawful`]).
pub fn entry(
    out: &mut Vec<u8>,
    format: Format,
    version: u64,
    key: &[u8],
    columns: &[Column],
) -> Result<(), WriteError> {
    let (format, length, n) = (format as u32, key.len(), columns.len());
    // SAFETY: slices are lent for the call, and `append` says where and how much may be written.
    write(out, |at, room, count| unsafe {
        c::mtr_entry(format, version, key.as_ptr(), length, columns.as_ptr(), n, at, room, count)
    })
}

/// Appends the footer of a part that has `entries` entries. Its checkpoint ends at the timestamp `end`.
pub fn part_footer(out: &mut Vec<u8>, end: u64, entries: u32) -> Result<(), OutOfMemory> {
    // SAFETY: slices are lent for the call, and `append` says where and how much may be written.
    done(append(out, |at, room, count| unsafe { c::mtr_part_footer(end, entries, at, room, count) }))
}

/// Appends the bytes that must replace a log before a server goes on after a recovery. `log` has the bytes of the log, and
/// `cutoff` is the cutoff of the report. The new bytes have the header of the log, with a `from` of at most the cutoff; its
/// records below the cutoff; a mark at the cutoff; and, if the log was ended, the mark at 2^64 - 1 that ends it.
///
/// A log of format 4 is replaced by a file of format 4 with the salt `salt`, a random number that must be new for each file.
/// The header of the new file says `workers`, the number of writers of the report
/// ([`Report::writers`](crate::Report::writers)). So later starts miss each worker whose logs are all lost, but not a worker
/// without which the server went on already. A server that deletes all files of a worker once its log has ended gives a lower
/// number, such as 0.
///
/// `NoLog`: the bytes are no log.
pub fn resume_log(out: &mut Vec<u8>, log: &[u8], cutoff: u64, salt: u64, workers: u32) -> Result<Resumed, WriteError> {
    let mut raw = RawResumed::default();
    // SAFETY: slices are lent for the call, and `append` says where and how much may be written.
    write(out, |at, room, count| unsafe {
        c::mtr_resume_log(log.as_ptr(), log.len(), cutoff, salt, workers, &mut raw, at, room, count)
    })?;
    let format = if raw.format == 1 { Format::One } else { Format::Two };
    Ok(Resumed { dropped: raw.dropped, late_marks: raw.late_marks, format, changed: raw.changed, ended: raw.ended })
}

/// Returns the number of workers that the header of a log of format 4 says. If the bytes do not begin with such a header, it
/// returns 0. A server that finds logs of fewer workers ([`Report::writers`](crate::Report::writers)) has lost all files of a
/// worker.
pub fn workers_said(log: &[u8]) -> u32 {
    let mut raw = RawLogFront::default();
    // SAFETY: the log is lent for the call, which writes to `raw` alone.
    match unsafe { c::mtr_read_log_header(log.as_ptr(), log.len(), &mut raw) } {
        c::DONE => raw.workers,
        _ => 0,
    }
}

/// Where a log ends. A server compares these facts of all its logs to find out whether more was lost than a crash loses.
#[derive(Clone, Copy, Debug, PartialEq, Eq)]
#[non_exhaustive]
pub struct Ending {
    /// The timestamp in the header of the log. Updates below it may be missing from the log.
    pub from: u64,
    /// The greatest timestamp of the header and of the complete records.
    pub last: u64,
    /// Whether a torn tail follows the complete records.
    pub torn: bool,
    /// Whether more records follow the torn tail. No crash leaves such records. It is never true for a log of format 4.
    pub goes_on: bool,
}

/// Returns where the log with these bytes ends. `NoLog`: the bytes are no log.
pub fn log_ending(log: &[u8]) -> Result<Ending, WriteError> {
    let mut raw = RawLogEnding::default();
    // SAFETY: the log is lent for the call, which writes to `raw` alone.
    match unsafe { c::mtr_read_log_ending(log.as_ptr(), log.len(), &mut raw) } {
        c::DONE => Ok(Ending { from: raw.from, last: raw.last, torn: raw.torn, goes_on: raw.goes_on }),
        c::MEMORY => Err(WriteError::OutOfMemory),
        c::FAULT => Err(WriteError::NoLog),
        status => unreachable!("status {status}"),
    }
}
