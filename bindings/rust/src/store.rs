//! The recovered store, and the report of its recovery.

use alloc::alloc::{handle_alloc_error, Layout};
use alloc::vec::Vec;

use crate::c::{self, Place, RawReport};
use crate::inputs::done;
use crate::records::append;
use crate::OutOfMemory;

/// A recovered store: keys with their columns. Nothing changes a store. A clone is the same store for another thread; cloning
/// copies nothing.
///
/// Give each thread a clone of its own. A store answers one call at a time, so threads cannot share one store:
///
/// ```compile_fail,E0277
/// fn share<T: Sync>() {}
/// share::<mtrecover::Store>();
/// ```
#[derive(Debug)]
pub struct Store(pub(crate) Place);

impl Store {
    /// Returns whether the store has this key.
    pub fn contains_key(&self, key: &[u8]) -> bool {
        // SAFETY: the key is lent for the call, and the place holds a store.
        unsafe { c::mtr_exists(self.0.raw(), key.as_ptr(), key.len()) == c::DONE }
    }

    /// Returns the value of the column with the number `column` of this key. Returns `None` if the store does not have the
    /// key, or the key does not have this column.
    pub fn get(&self, key: &[u8], column: u8) -> Option<Vec<u8>> {
        let mut value = Vec::new();
        // SAFETY: the key is lent for the call, and the place holds a store.
        let status = append(&mut value, |out, room, count| unsafe {
            c::mtr_get(self.0.raw(), key.as_ptr(), key.len(), column, out, room, count)
        });
        (status == c::DONE).then_some(value)
    }

    /// Returns the report: what recovery found in the logs and parts.
    pub fn report(&self) -> Report {
        let mut raw = RawReport::default();
        // SAFETY: the place holds a store, and the call writes to `raw` alone.
        unsafe { c::mtr_get_report(self.0.raw(), &mut raw) };
        Report {
            cutoff: raw.cutoff,
            last: raw.last,
            version: raw.version,
            checkpoint: (raw.checkpoint != u64::MAX).then_some(raw.checkpoint),
            begin: raw.begin,
            entries: raw.entries,
            writers: raw.writers,
            records: raw.records,
            marks: raw.marks,
            torn: raw.torn,
            holes: raw.holes,
            early: raw.early,
            late: raw.late,
            survivors: raw.survivors,
            keys: raw.keys,
            layers: raw.layers,
            ends: self.list(c::mtr_report_end),
            skipped: self.list(c::mtr_report_skipped),
            nameless: self.list(c::mtr_report_nameless),
        }
    }

    /// Returns the items of a list of the report, each of which the call `item` gives.
    fn list(&self, item: unsafe extern "C" fn(*mut c::RawPlace, usize, *mut u64) -> u32) -> Vec<u64> {
        let mut items = Vec::new();
        let mut found = 0;
        // SAFETY: the place holds a store, and the call writes to `found` alone.
        while unsafe { item(self.0.raw(), items.len(), &mut found) } == c::DONE {
            items.push(found);
        }
        items
    }

    /// Returns another handle of the same store, for another thread. Nothing is copied. The store is freed with the last of
    /// its handles. This is what [`Clone`] does, but out of memory is an error here.
    pub fn share(&self) -> Result<Store, OutOfMemory> {
        let other = Place::empty();
        // SAFETY: the place holds a store, and the other one is empty.
        done(unsafe { c::mtr_share(self.0.raw(), other.raw()) })?;
        Ok(Store(other))
    }
}

impl Clone for Store {
    /// Returns another handle of the same store, as [`Store::share`] does. If memory runs out, this ends the program, as a
    /// clone of a `Vec` does.
    fn clone(&self) -> Store {
        self.share().unwrap_or_else(|OutOfMemory| handle_alloc_error(Layout::new::<Place>()))
    }
}

/// What recovery found in the logs and parts. `u64::MAX` may stand for a greater number.
#[derive(Clone, Debug, PartialEq, Eq)]
#[non_exhaustive]
pub struct Report {
    /// The cutoff: an update of a log survives only if its timestamp is below the cutoff. New updates get timestamps from the
    /// cutoff on.
    pub cutoff: u64,
    /// The greatest timestamp in the logs.
    pub last: u64,
    /// The greatest version of the complete records of the logs and of the entries of the chosen checkpoint, or 0.
    pub version: u64,
    /// The number of the checkpoint that recovery chose, or `None` if it chose none.
    pub checkpoint: Option<u64>,
    /// The timestamp from which updates survive: the begin of the chosen checkpoint, or 0 if there is none.
    pub begin: u64,
    /// How many entries the chosen checkpoint has.
    pub entries: u64,
    /// How many logs there are, if all segments of a worker are counted as one log.
    pub writers: u64,
    /// How many complete records the logs have, marks included.
    pub records: u64,
    /// How many of these records are marks.
    pub marks: u64,
    /// How many log files end in a torn tail: in bytes that are no whole record, as a crash leaves them.
    pub torn: u64,
    /// Before how many log files updates may be missing.
    pub holes: u64,
    /// How many updates are early: below `begin`.
    pub early: u64,
    /// How many updates are late: at or past the cutoff.
    pub late: u64,
    /// How many updates and entries survive.
    pub survivors: u64,
    /// How many keys the store has.
    pub keys: u64,
    /// How many layers the tree of the store has.
    pub layers: u64,
    /// For each log, where its complete records end: the number of bytes of its header and of these records. For a log of
    /// format 4, the bytes of the log of format 3 that stands in its blocks are counted.
    pub ends: Vec<u64>,
    /// The numbers of the checkpoints that are invalid. They rise.
    pub skipped: Vec<u64>,
    /// The parts that have no header, and so belong to no checkpoint: the number that each has among all parts. They rise.
    pub nameless: Vec<u64>,
}
