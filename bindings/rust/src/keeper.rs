//! The keeper of a server's logs: which bytes to write, which updates may be acknowledged, and which files may be deleted.
//! `docs/DURABILITY.md` has the duties of a server that uses a keeper.

use alloc::sync::Arc;
use alloc::vec::Vec;
use core::error::Error as StdError;
use core::fmt::{self, Display, Formatter};
use core::ops::Deref;
use core::{ptr, slice};

use crate::c::{self, Column, Place, RawLent};
use crate::inputs::done;
use crate::records::append;
use crate::{OutOfMemory, Store};

/// Keeps the logs of a server, so that a crash loses nothing that the server acknowledged. A keeper owns no file. It gives the
/// server bytes, and the server tells the keeper what became of them. A [`host`](crate::host) does this file work for a
/// server. If several threads of a server call one keeper, they must hold a lock for each call; or the keeper lends its logs
/// to the threads ([`Keeper::lend`]).
///
/// The keeper gives each update a *stamp*: a number that is both the timestamp and the version of the update.
///
/// The log of one worker is a row of files, which are called segments. Each segment is first a [`NewLog`], until its file is
/// created. Then it is a [`Log`], until the next segment follows. When its file must be deleted, it is an [`OldLog`]. Give a
/// keeper only logs of its own: if a call gets a log of another keeper, it may return [`KeeperError::NotLawful`], or take the
/// log for one of its own.
///
/// ```
/// # use mtrecover::{Buffer, Keeper};
/// # use mtrecover::records::Column;
/// # let salt = 7;
/// let (mut keeper, new) = Keeper::begin(salt)?;
/// let mut file = new.bytes().to_vec(); // under another name, synced; renamed; the folder synced
/// let log = keeper.created(new)?;
/// let stamp = keeper.put(&log, b"fig", &[Column::new(0, b"green")])?;
/// keeper.mark(&log)?;
///
/// let mut buffer = Buffer::new();
/// let taken = keeper.take(&log, &mut buffer)?;
/// file.extend_from_slice(&taken); // and synced
/// keeper.synced(taken)?;
/// assert!(stamp < keeper.acknowledged_below());
/// assert_eq!(mtrecover::recover(&[&file], &[])?.get(b"fig", 0), Some(b"green".to_vec()));
/// # Ok::<(), Box<dyn std::error::Error>>(())
/// ```
#[derive(Debug)]
pub struct Keeper(Place);

/// The segment that a file is: two numbers, of which the server makes the name of the file.
#[derive(Clone, Copy, Debug, PartialEq, Eq, PartialOrd, Ord)]
pub struct Segment {
    /// The number of the worker whose log it is.
    pub worker: u32,
    /// The number of the segment among the segments of this worker.
    pub number: u32,
}

/// A log whose file must be created first. Until then it takes no record:
///
/// ```compile_fail,E0308
/// let (mut keeper, new) = mtrecover::Keeper::begin(7).unwrap();
/// keeper.remove(&new, b"fig");
/// ```
#[must_use]
#[derive(Debug)]
pub struct NewLog {
    number: usize,
    segment: Segment,
    bytes: Vec<u8>,
}

/// A log that takes records. Its file is there.
#[must_use]
#[derive(Debug)]
pub struct Log {
    number: usize,
}

/// A log whose file must be deleted.
#[must_use]
#[derive(Debug)]
pub struct OldLog {
    number: usize,
    segment: Segment,
}

/// A place for the bytes of a take: the bytes that are to be appended to a file. A buffer can be used for one take after
/// another.
#[derive(Debug)]
pub struct Buffer(Place);

/// The bytes of a take of one log. A buffer lends these bytes until the buffer is used again, or dropped:
///
/// ```compile_fail,E0499
/// # use mtrecover::keeper::{Buffer, Keeper, Log};
/// fn take_both(keeper: &mut Keeper, one: &Log, other: &Log, buffer: &mut Buffer) {
///     let taken = keeper.take(one, buffer).unwrap();
///     let others = keeper.take(other, buffer).unwrap();
///     keeper.synced(taken).unwrap();
/// }
/// ```
#[must_use]
#[derive(Debug)]
pub struct Taken<'b> {
    number: usize,
    bytes: &'b [u8],
}

/// A keeper that has lent its logs to threads. After all logs are back, [`Crew::close`] gives the keeper back.
#[derive(Debug)]
pub struct Crew {
    place: Place,
    /// The numbers of the logs that are handed out, and what their workers share with no other.
    out: Vec<Arc<usize>>,
}

/// A log that a keeper lent to a thread. The thread appends to the log without a lock. The calls of a worker do what the calls
/// of a keeper do.
#[must_use]
#[derive(Debug)]
pub struct Worker {
    place: Place,
    log: Arc<usize>,
}

/// A checkpoint that is being made. Its number and its begin both stand in the headers of its parts.
#[derive(Clone, Copy, Debug, PartialEq, Eq)]
pub struct Checkpoint {
    /// The number of the checkpoint.
    pub number: u32,
    /// The begin of the checkpoint, a timestamp. Updates at or after it may be missing from the checkpoint.
    pub begin: u64,
}

/// Writes a part of a checkpoint, in format 4. It ensures the rules of a part: the keys rise, the entries are lawful, and the
/// footer has the number of the entries. It owns no file: it gives the bytes, and the server writes them. A call that returns
/// an `Err` changes nothing. Then give the checkpoint up ([`Keeper::abandon_checkpoint`]), and delete nothing for it.
///
/// ```
/// # use mtrecover::keeper::{Buffer, Checkpoint, KeeperError, PartWriter};
/// # use mtrecover::records::Column;
/// # let (salt, checkpoint, end) = (7, Checkpoint { number: 1, begin: 5 }, 6);
/// let mut part = PartWriter::begin(salt, &checkpoint, 0, 1)?;
/// part.entry(4, b"fig", &[Column::new(0, b"green")])?;
/// assert_eq!(part.entry(3, b"fig", &[Column::new(0, b"ripe")]), Err(KeeperError::NotLawful));
/// part.end(end)?;
///
/// let mut buffer = Buffer::new();
/// let file = part.take(&mut buffer)?.to_vec();
/// # assert_eq!(file.len(), 36 + 16 + 30 + 16);
/// # Ok::<(), KeeperError>(())
/// ```
#[derive(Debug)]
pub struct PartWriter(Place);

/// A keeper that goes on after a crash, while it takes the logs that the last server left. [`Resuming::finish`] makes a
/// [`Keeper`] of it.
#[derive(Debug)]
pub struct Resuming {
    place: Place,
    logs: Vec<usize>,
}

/// Why a keeper does not do what a call asks. Then nothing changed, except that a [`Worker`] may have lost a stamp.
#[derive(Clone, Copy, Debug, PartialEq, Eq)]
#[non_exhaustive]
pub enum KeeperError {
    /// There is not enough memory.
    OutOfMemory,
    /// An argument is not lawful. These are the cases:
    ///
    /// - No log of format 2 may have the record, or no part of format 2 may have the entry.
    /// - The log, or the bytes of a take, belong to another keeper or to another worker; or a worker does not come back in its
    ///   turn.
    /// - No keeper may go on with the log that was added.
    /// - The key of an entry is not above the last key of the part; or the end of the part is below its begin; or the part has
    ///   ended already.
    /// - A checkpoint that recovery chose or skipped has a greater number than the number that [`Keeper::resume`] got.
    NotLawful,
    /// Something that must happen before this call did not happen yet.
    Early,
    /// The log has no room, or no stamp or number is left.
    Full,
    /// A write or a sync failed before.
    Failed,
}

impl KeeperError {
    fn of(status: u32) -> KeeperError {
        match status {
            c::MEMORY => KeeperError::OutOfMemory,
            c::WRONG => KeeperError::NotLawful,
            c::EARLY => KeeperError::Early,
            c::FULL => KeeperError::Full,
            c::FAILED => KeeperError::Failed,
            _ => unreachable!("status {status}"),
        }
    }
}

/// Returns `Ok` if the status is `MTR_DONE`.
fn answered(status: u32) -> Result<(), KeeperError> {
    match status {
        c::DONE => Ok(()),
        _ => Err(KeeperError::of(status)),
    }
}

/// No bytes. A call that lends bytes writes here where they are.
const NOTHING: RawLent = RawLent { at: ptr::null(), length: 0 };

/// Returns the bytes that a call lent.
///
/// # Safety
/// They are lent for `'b`.
unsafe fn lent<'b>(raw: RawLent) -> &'b [u8] {
    match raw.length {
        0 => &[],
        length => slice::from_raw_parts(raw.at, length),
    }
}

impl Keeper {
    /// Returns the keeper of an empty folder, and its first log. The file of this log must be created first
    /// ([`NewLog::bytes`]). Until [`Keeper::created`] notes that, the keeper begins no other log and no checkpoint: these
    /// calls return [`KeeperError::NotLawful`]. The logs are of format 4.
    ///
    /// `salt` is a random number. The first file has this salt, and each further file has the next number. The salt is needed
    /// because a crash may leave bytes of another file in a file: by the salt, recovery knows that they belong to another
    /// file.
    pub fn begin(salt: u64) -> Result<(Keeper, NewLog), OutOfMemory> {
        let keeper = Keeper(Place::empty());
        // SAFETY: the place is empty.
        done(unsafe { c::mtr_keeper_begin(keeper.0.raw(), salt) })?;
        let first = keeper.new_log(0);
        Ok((keeper, first))
    }

    /// Begins a keeper that goes on from this store after a crash. All files of the folder must be files that a keeper made.
    /// First sync these files and the folder. Then delete the parts of all checkpoints except the one that the report names,
    /// because a later recovery could choose another checkpoint.
    /// - `number` is the greatest checkpoint number of all parts that the folder had before the deletion, or 0 if it had none.
    /// - `salt` is a random number as for [`Keeper::begin`]. No log that was resumed may have this salt.
    ///
    /// The stamps go on from the `cutoff` of the report, and are above its `version`. `NotLawful`: the number of the
    /// checkpoint that recovery chose, or of one that it skipped, is greater than `number`.
    pub fn resume(store: &Store, number: u32, salt: u64) -> Result<Resuming, KeeperError> {
        let place = Place::empty();
        // SAFETY: one place is empty, and the other holds a store.
        answered(unsafe { c::mtr_keeper_resume(place.raw(), store.0.raw(), number, salt) })?;
        Ok(Resuming { place, logs: Vec::new() })
    }

    /// Begins the log of a new worker. Its file must then be created ([`NewLog::bytes`]). From now on, acknowledgements wait
    /// for this log too. `Full`: no stamp is left, or no number for a worker.
    pub fn begin_log(&mut self) -> Result<NewLog, KeeperError> {
        let mut number = 0;
        // SAFETY: the place holds a keeper.
        answered(unsafe { c::mtr_log_begin(self.0.raw(), &mut number) })?;
        Ok(self.new_log(number))
    }

    /// Seals a log, so that it takes no more records, and begins the next segment of its worker. The file of that segment must
    /// then be created ([`NewLog::bytes`]). `Early`: not all records of the log are synced. After an `Err` the log takes
    /// records as before.
    pub fn rotate(&mut self, log: Log) -> Result<NewLog, (Log, KeeperError)> {
        let mut next = 0;
        // SAFETY: the place holds a keeper.
        match unsafe { c::mtr_log_rotate(self.0.raw(), log.number, &mut next) } {
            c::DONE => Ok(self.new_log(next)),
            status => Err((log, KeeperError::of(status))),
        }
    }

    /// Returns the log with this number, whose file must be created.
    fn new_log(&self, number: usize) -> NewLog {
        let mut bytes = Vec::new();
        // SAFETY: the place holds a keeper, and `append` says where and how much may be written.
        append(&mut bytes, |out, room, count| unsafe { c::mtr_log_bytes(self.0.raw(), number, out, room, count) });
        NewLog { number, segment: self.segment(number).expect("a new log is a segment"), bytes }
    }

    fn segment(&self, number: usize) -> Option<Segment> {
        let mut segment = Segment { worker: 0, number: 0 };
        // SAFETY: the place holds a keeper.
        let status = unsafe { c::mtr_log_segment(self.0.raw(), number, &mut segment.worker, &mut segment.number) };
        (status == c::DONE).then_some(segment)
    }

    /// Notes that the file of the log has its bytes and its name, and that the file and then the folder were synced. Returns
    /// the log, which takes records from now on.
    pub fn created(&mut self, new: NewLog) -> Result<Log, KeeperError> {
        // SAFETY: the place holds a keeper.
        answered(unsafe { c::mtr_log_created(self.0.raw(), new.number) })?;
        Ok(Log { number: new.number })
    }

    /// Appends a put of these columns of the key to a log. The numbers of the columns must rise. Returns the stamp of the
    /// update, which is above all stamps before.
    ///
    /// The updates of a key must take effect in the order of their stamps. So make no other update of the same key at the same
    /// time: hold one lock while you make this call and change the key in the server's own table.
    /// - `NotLawful`: no log of format 2 may have the record.
    /// - `Full`: the log has no room for the record, or no stamp is left. If the log has no room, go on in its next segment
    ///   ([`Keeper::rotate`]).
    /// - `Early`: the log holds records that were not taken, and together with this one they would have more than 32,768
    ///   bytes. Take them, write them and sync them first.
    pub fn put(&mut self, log: &Log, key: &[u8], columns: &[Column]) -> Result<u64, KeeperError> {
        let (length, n) = (key.len(), columns.len());
        // SAFETY: slices are lent for the call, and the place holds a keeper.
        self.stamp(|keeper, stamp| unsafe {
            c::mtr_log_put(keeper, log.number, key.as_ptr(), length, columns.as_ptr(), n, stamp)
        })
    }

    /// Appends a remove of the key to a log. A remove takes all columns from the key. All else is as for [`Keeper::put`].
    pub fn remove(&mut self, log: &Log, key: &[u8]) -> Result<u64, KeeperError> {
        // SAFETY: slices are lent for the call, and the place holds a keeper.
        self.stamp(|keeper, stamp| unsafe { c::mtr_log_remove(keeper, log.number, key.as_ptr(), key.len(), stamp) })
    }

    /// Appends an erase to a log. An erase takes the columns with these numbers from the key. The numbers must rise. All else
    /// is as for [`Keeper::put`].
    pub fn erase(&mut self, log: &Log, key: &[u8], numbers: &[u8]) -> Result<u64, KeeperError> {
        let (length, n) = (key.len(), numbers.len());
        // SAFETY: slices are lent for the call, and the place holds a keeper.
        self.stamp(|keeper, stamp| unsafe {
            c::mtr_log_erase(keeper, log.number, key.as_ptr(), length, numbers.as_ptr(), n, stamp)
        })
    }

    /// Returns the stamp that the call writes.
    fn stamp(&mut self, call: impl FnOnce(*mut c::RawPlace, *mut u64) -> u32) -> Result<u64, KeeperError> {
        let mut stamp = 0;
        answered(call(self.0.raw(), &mut stamp))?;
        Ok(stamp)
    }

    /// Appends a mark to a log. The mark is above all stamps so far. After each log has synced a mark of this call, all updates
    /// from before these marks may be acknowledged. `Full` and `Early`: as for [`Keeper::put`].
    pub fn mark(&mut self, log: &Log) -> Result<(), KeeperError> {
        // SAFETY: the place holds a keeper.
        answered(unsafe { c::mtr_log_mark(self.0.raw(), log.number) })
    }

    /// Takes all that was appended to the log since its last take. Append these bytes to the file of the log by one write, and
    /// sync the file. Then call [`Keeper::synced`]. `buffer` holds the bytes, and lends them. `Early`: the bytes of the last
    /// take are not synced.
    ///
    /// No log may run more than 16 takes ahead of what is acknowledged, because a start refuses a log that has more than 16
    /// marks at or past the cutoff. So wait before a take, as long as the mark of the take 16 takes ago is not below the
    /// number that [`Keeper::acknowledged_below`] returns.
    pub fn take<'b>(&mut self, log: &Log, buffer: &'b mut Buffer) -> Result<Taken<'b>, KeeperError> {
        let mut raw = NOTHING;
        // SAFETY: one place holds a keeper, and the buffer nothing or bytes.
        answered(unsafe { c::mtr_log_take(self.0.raw(), log.number, buffer.0.raw(), &mut raw) })?;
        // SAFETY: the buffer is borrowed for `'b`.
        Ok(Taken { number: log.number, bytes: unsafe { lent(raw) } })
    }

    /// Notes that the file of the log has these bytes, and that it was synced after they were written.
    pub fn synced(&mut self, taken: Taken) -> Result<(), KeeperError> {
        // SAFETY: the place holds a keeper.
        answered(unsafe { c::mtr_log_synced(self.0.raw(), taken.number) })
    }

    /// Notes that a write or a sync failed. From then on, each call that would change the keeper returns `Failed`. Restart the
    /// machine, and recover from what is on its disk, because a later sync may succeed although bytes are lost.
    pub fn failed(&mut self) {
        // SAFETY: the place holds a keeper.
        unsafe { c::mtr_keeper_failed(self.0.raw()) };
    }

    /// Lends all logs that take records, so that threads can append to them at the same time. To create, rotate or delete
    /// logs, or to make a checkpoint, take all logs back and close the crew. Then lend the logs again. `Full`: there are more
    /// than 65,536 logs, or the last stamp is 2^63 or above. After an `Err` the keeper is as before.
    ///
    /// ```
    /// # use mtrecover::{Keeper, records::Column};
    /// let (mut keeper, first) = Keeper::begin(7)?;
    /// let log = keeper.created(first)?;
    /// let mut crew = keeper.lend().map_err(|(_, error)| error)?;
    /// let mut worker = crew.hire()?.expect("the worker of the log");
    /// let thread = std::thread::spawn(move || {
    ///     let stamp = worker.put(b"fig", &[Column::new(0, b"green")]);
    ///     (worker, stamp)
    /// });
    /// let (worker, stamp) = thread.join().unwrap();
    /// crew.join(worker).map_err(|(_, error)| error)?;
    /// let mut keeper = crew.close().map_err(|(_, error)| error)?;
    /// assert!(keeper.remove(&log, b"fig")? > stamp?);
    /// # Ok::<(), Box<dyn std::error::Error>>(())
    /// ```
    pub fn lend(self) -> Result<Crew, (Keeper, KeeperError)> {
        // SAFETY: the place holds a keeper.
        match answered(unsafe { c::mtr_keeper_lend(self.0.raw()) }) {
            Ok(()) => Ok(Crew { place: self.0, out: Vec::new() }),
            Err(error) => Err((self, error)),
        }
    }

    /// Returns a number: all updates whose stamps are below it may be acknowledged, or shown to clients.
    pub fn acknowledged_below(&self) -> u64 {
        let mut below = 0;
        // SAFETY: the place holds a keeper.
        unsafe { c::mtr_keeper_acknowledged(self.0.raw(), &mut below) };
        below
    }

    /// Begins a checkpoint. Then read each key that has columns, and give its entry to a [`PartWriter`]:
    /// - Read the columns and the version of a key in one step, between two of its updates.
    /// - The version of the entry is the stamp of the last update of the key. If the key was not updated since
    ///   [`Keeper::resume`], the version is instead the `cutoff` of the report minus 1.
    /// - The keys must strictly rise, compared byte by byte, within each part and from each part to the next. Otherwise the
    ///   checkpoint is not valid.
    ///
    /// `Early`: another checkpoint is being made. `Full`: no stamp is left, or no number for a checkpoint.
    pub fn begin_checkpoint(&mut self) -> Result<Checkpoint, KeeperError> {
        let mut made = Checkpoint { number: 0, begin: 0 };
        // SAFETY: the place holds a keeper.
        answered(unsafe { c::mtr_checkpoint_begin(self.0.raw(), &mut made.number, &mut made.begin) })?;
        Ok(made)
    }

    /// Notes that all keys of the checkpoint are read. Returns the end of the checkpoint, which stands in the footers of its
    /// parts ([`PartWriter::end`]). Then sync the parts, rename them, and sync the folder. `Early`: no checkpoint is being
    /// read.
    pub fn end_checkpoint(&mut self) -> Result<u64, KeeperError> {
        let mut end = 0;
        // SAFETY: the place holds a keeper.
        answered(unsafe { c::mtr_checkpoint_end(self.0.raw(), &mut end) })?;
        Ok(end)
    }

    /// Notes that the parts of the checkpoint have their names, and that the parts and the folder are synced. From now on the
    /// server *stands* on this checkpoint, that is, relies on it. The parts of earlier checkpoints may then be deleted.
    /// `Early`: no checkpoint was read, or some log is not synced past the end of the checkpoint.
    pub fn stand(&mut self) -> Result<(), KeeperError> {
        // SAFETY: the place holds a keeper.
        answered(unsafe { c::mtr_checkpoint_stand(self.0.raw()) })
    }

    /// Gives up the checkpoint that is being made. If no checkpoint is being made, the call does nothing.
    pub fn abandon_checkpoint(&mut self) -> Result<(), KeeperError> {
        // SAFETY: the place holds a keeper.
        answered(unsafe { c::mtr_checkpoint_abandon(self.0.raw()) })
    }

    /// Returns the next log whose file must be deleted, or `None` if there is none. The file is the lowest segment of a
    /// worker, and it has no updates at or after the begin of the checkpoint on which the server stands. Delete the file, sync
    /// the folder, and then call [`Keeper::deleted`].
    pub fn next_to_delete(&mut self) -> Option<OldLog> {
        let mut number = 0;
        // SAFETY: the place holds a keeper.
        match unsafe { c::mtr_log_delete(self.0.raw(), &mut number) } {
            c::DONE => Some(OldLog { number, segment: self.segment(number)? }),
            _ => None,
        }
    }

    /// Notes that the file of the log is deleted, and that the folder was synced after that.
    pub fn deleted(&mut self, old: OldLog) -> Result<(), KeeperError> {
        // SAFETY: the place holds a keeper.
        answered(unsafe { c::mtr_log_deleted(self.0.raw(), old.number) })
    }
}

impl Crew {
    /// Hands out the next log, for one thread. Returns `None` if all logs are handed out.
    pub fn hire(&mut self) -> Result<Option<Worker>, OutOfMemory> {
        let (place, mut log) = (Place::empty(), 0);
        // SAFETY: one place holds a crew, and the other is empty.
        match unsafe { c::mtr_crew_hire(self.place.raw(), place.raw()) } {
            c::ABSENT => return Ok(None),
            status => done(status)?,
        }
        // SAFETY: the place holds a worker.
        unsafe { c::mtr_worker_log(place.raw(), &mut log) };
        let log = Arc::new(log);
        self.out.push(Arc::clone(&log));
        Ok(Some(Worker { place, log }))
    }

    /// Takes a log back. The log that was handed out last must come back first. `NotLawful`: this is another log. The error
    /// gives the worker back.
    pub fn join(&mut self, worker: Worker) -> Result<(), (Worker, KeeperError)> {
        if !self.out.last().is_some_and(|last| Arc::ptr_eq(last, &worker.log)) {
            return Err((worker, KeeperError::NotLawful));
        }
        // SAFETY: the worker is this crew's.
        match answered(unsafe { c::mtr_crew_join(self.place.raw(), worker.place.raw()) }) {
            Ok(()) => {
                self.out.pop();
                Ok(())
            }
            Err(error) => Err((worker, error)),
        }
    }

    /// Gives the keeper back. `Early`: a log is still handed out. The error gives the crew back.
    pub fn close(self) -> Result<Keeper, (Crew, KeeperError)> {
        // SAFETY: the place holds a crew.
        match answered(unsafe { c::mtr_crew_close(self.place.raw()) }) {
            Ok(()) => Ok(Keeper(self.place)),
            Err(error) => Err((self, error)),
        }
    }
}

impl Worker {
    /// Returns whether this is the worker of this log.
    pub fn has(&self, log: &Log) -> bool {
        *self.log == log.number
    }

    /// Appends a put to the log of the worker, as [`Keeper::put`] does. The stamps of all threads rise in one order. `Full`:
    /// the worker has drawn 2^44 stamps, or the log has no room. After an `Err` a stamp may be lost: no update gets it.
    pub fn put(&mut self, key: &[u8], columns: &[Column]) -> Result<u64, KeeperError> {
        let (length, n) = (key.len(), columns.len());
        // SAFETY: slices are lent for the call, and the place holds a worker.
        self.stamp(|worker, stamp| unsafe {
            c::mtr_worker_put(worker, key.as_ptr(), length, columns.as_ptr(), n, stamp)
        })
    }

    /// Appends a remove to the log of the worker, as [`Keeper::remove`] does. All else is as for [`Worker::put`].
    pub fn remove(&mut self, key: &[u8]) -> Result<u64, KeeperError> {
        // SAFETY: slices are lent for the call, and the place holds a worker.
        self.stamp(|worker, stamp| unsafe { c::mtr_worker_remove(worker, key.as_ptr(), key.len(), stamp) })
    }

    /// Appends an erase to the log of the worker, as [`Keeper::erase`] does. All else is as for [`Worker::put`].
    pub fn erase(&mut self, key: &[u8], numbers: &[u8]) -> Result<u64, KeeperError> {
        let (length, n) = (key.len(), numbers.len());
        // SAFETY: slices are lent for the call, and the place holds a worker.
        self.stamp(|worker, stamp| unsafe {
            c::mtr_worker_erase(worker, key.as_ptr(), length, numbers.as_ptr(), n, stamp)
        })
    }

    /// Returns the stamp that the call writes.
    fn stamp(&mut self, call: impl FnOnce(*mut c::RawPlace, *mut u64) -> u32) -> Result<u64, KeeperError> {
        let mut stamp = 0;
        answered(call(self.place.raw(), &mut stamp))?;
        Ok(stamp)
    }

    /// Appends a mark to the log of the worker, as [`Keeper::mark`] does.
    pub fn mark(&mut self) -> Result<(), KeeperError> {
        // SAFETY: the place holds a worker.
        answered(unsafe { c::mtr_worker_mark(self.place.raw()) })
    }

    /// Takes all that was appended to the log of the worker, as [`Keeper::take`] does.
    pub fn take<'b>(&mut self, buffer: &'b mut Buffer) -> Result<Taken<'b>, KeeperError> {
        let mut raw = NOTHING;
        // SAFETY: one place holds a worker, and the buffer nothing or bytes.
        answered(unsafe { c::mtr_worker_take(self.place.raw(), buffer.0.raw(), &mut raw) })?;
        // SAFETY: the buffer is borrowed for `'b`.
        Ok(Taken { number: *self.log, bytes: unsafe { lent(raw) } })
    }

    /// Notes that the file of the log has these bytes and was synced, as [`Keeper::synced`] does. `NotLawful`: the bytes are
    /// of another log.
    pub fn synced(&mut self, taken: Taken) -> Result<(), KeeperError> {
        if taken.number != *self.log {
            return Err(KeeperError::NotLawful);
        }
        // SAFETY: the place holds a worker.
        answered(unsafe { c::mtr_worker_synced(self.place.raw()) })
    }

    /// Notes that a write or a sync failed. From then on the worker takes nothing more. The keeper fails as soon as the log is
    /// back.
    pub fn failed(&mut self) {
        // SAFETY: the place holds a worker.
        unsafe { c::mtr_worker_failed(self.place.raw()) };
    }

    /// Returns a number: all updates of all threads whose stamps are below it may be acknowledged, or shown to clients.
    pub fn acknowledged_below(&mut self) -> u64 {
        let mut below = 0;
        // SAFETY: the place holds a worker.
        unsafe { c::mtr_worker_acknowledged(self.place.raw(), &mut below) };
        below
    }
}

impl NewLog {
    /// Returns the segment that the log is. The server makes the name of the file of its two numbers.
    pub fn segment(&self) -> Segment {
        self.segment
    }

    /// Returns the first bytes of the file. Write them to a file with another name, sync the file, rename it to its own name,
    /// and sync the folder. Then call [`Keeper::created`].
    pub fn bytes(&self) -> &[u8] {
        &self.bytes
    }
}

impl OldLog {
    /// Returns the segment that the log is. The server makes the name of the file of its two numbers.
    pub fn segment(&self) -> Segment {
        self.segment
    }
}

impl PartWriter {
    /// Begins a part of this checkpoint. The checkpoint has `parts` parts, and this is part `part` of them, counted from 0.
    /// `salt` is a random number, which must be new for each file.
    pub fn begin(salt: u64, checkpoint: &Checkpoint, part: u16, parts: u16) -> Result<PartWriter, OutOfMemory> {
        let Checkpoint { number, begin } = *checkpoint;
        let place = Place::empty();
        // SAFETY: the place is empty.
        done(unsafe { c::mtr_part_begin(place.raw(), salt, number, begin, part, parts) })?;
        Ok(PartWriter(place))
    }

    /// Begins a part as [`PartWriter::begin`] does, and demands in addition that all keys of the part are above the key
    /// `above`. Give it the last key of the part before.
    pub fn begin_above(
        salt: u64,
        checkpoint: &Checkpoint,
        part: u16,
        parts: u16,
        above: &[u8],
    ) -> Result<PartWriter, OutOfMemory> {
        let Checkpoint { number, begin } = *checkpoint;
        let place = Place::empty();
        // SAFETY: the place is empty, and the key is lent for the call.
        done(unsafe {
            c::mtr_part_begin_above(place.raw(), salt, number, begin, part, parts, above.as_ptr(), above.len())
        })?;
        Ok(PartWriter(place))
    }

    /// Appends the entry of a key with these columns. The numbers of the columns must rise. The keys must rise too, compared
    /// byte by byte.
    /// - `NotLawful`: the key is not above the last one; or no part of format 4 may have the entry; or the part has ended.
    /// - `Full`: the part has 2^32 - 1 entries already.
    pub fn entry(&mut self, version: u64, key: &[u8], columns: &[Column]) -> Result<(), KeeperError> {
        // SAFETY: the place holds a writer of a part, and slices are lent for the call.
        answered(unsafe {
            c::mtr_part_entry(self.0.raw(), version, key.as_ptr(), key.len(), columns.as_ptr(), columns.len())
        })
    }

    /// Ends the part, after its last entry. `end` is the end of its checkpoint, which [`Keeper::end_checkpoint`] returned.
    /// `NotLawful`: `end` is below the begin of the checkpoint, or the part has ended already.
    pub fn end(&mut self, end: u64) -> Result<(), KeeperError> {
        // SAFETY: the place holds a writer of a part.
        answered(unsafe { c::mtr_part_end(self.0.raw(), end) })
    }

    /// Takes the bytes that are ready to be appended to the file of the part: first the header, then whole blocks. There may
    /// be no bytes. After [`PartWriter::end`], the call gives all bytes that are left. `buffer` holds the bytes, and lends
    /// them.
    pub fn take<'b>(&mut self, buffer: &'b mut Buffer) -> Result<&'b [u8], KeeperError> {
        let mut raw = NOTHING;
        // SAFETY: one place holds a writer of a part, and the buffer nothing or bytes.
        answered(unsafe { c::mtr_part_take(self.0.raw(), buffer.0.raw(), &mut raw) })?;
        // SAFETY: the buffer is borrowed for `'b`.
        Ok(unsafe { lent(raw) })
    }
}

impl Buffer {
    /// Returns a buffer that holds no bytes.
    pub const fn new() -> Buffer {
        Buffer(Place::empty())
    }
}

impl Default for Buffer {
    fn default() -> Buffer {
        Buffer::new()
    }
}

impl Deref for Taken<'_> {
    type Target = [u8];

    fn deref(&self) -> &[u8] {
        self.bytes
    }
}

impl Resuming {
    /// Adds one log that the last server left. `log` has the bytes that [`resume_log`](crate::records::resume_log) wrote. Make
    /// this call only after the file of the log has these bytes. `NotLawful`: the log is ended; or it is a segment that was
    /// added already; or it was not resumed with the cutoff of the store.
    pub fn add(&mut self, log: &[u8]) -> Result<(), KeeperError> {
        let mut number = 0;
        // SAFETY: slices are lent for the call, and the place holds a keeper.
        answered(unsafe { c::mtr_keeper_add(self.place.raw(), log.as_ptr(), log.len(), &mut number) })?;
        self.logs.push(number);
        Ok(())
    }

    /// Notes that all logs are added, and that all files and the folder are synced. Returns the keeper, and the logs that take
    /// records, in the order in which they were added. These are all logs except the segments that a later segment follows.
    /// `Early`: the number of logs that were added is not the number of logs that recovery had. Then the keeper is dropped.
    pub fn finish(self) -> Result<(Keeper, Vec<Log>), KeeperError> {
        // SAFETY: the place holds a keeper.
        answered(unsafe { c::mtr_keeper_resumed(self.place.raw()) })?;
        let keeper = Keeper(self.place);
        let segments: Vec<_> = self.logs.iter().map(|&number| keeper.segment(number)).collect();
        let is_followed =
            |of: &Segment| segments.iter().flatten().any(|other| other.worker == of.worker && other.number > of.number);
        let is_open = |segment: &Option<Segment>| !segment.as_ref().is_some_and(is_followed);
        let logs = self.logs.iter().zip(&segments).filter(|(_, segment)| is_open(segment));
        let logs = logs.map(|(&number, _)| Log { number }).collect();
        Ok((keeper, logs))
    }
}

impl Display for KeeperError {
    fn fmt(&self, f: &mut Formatter<'_>) -> fmt::Result {
        f.pad(match self {
            KeeperError::OutOfMemory => "out of memory",
            KeeperError::NotLawful => "no lawful record or log",
            KeeperError::Early => "too early",
            KeeperError::Full => "no room, stamp or number is left",
            KeeperError::Failed => "a write or a sync failed",
        })
    }
}

impl From<OutOfMemory> for KeeperError {
    fn from(_: OutOfMemory) -> KeeperError {
        KeeperError::OutOfMemory
    }
}

impl StdError for KeeperError {}
