//! Logs and parts, from their bytes to the store.

use alloc::vec::Vec;
use core::marker::PhantomData;

use crate::c::{self, Place, RawFault};
use crate::{Error, Fault, OutOfMemory, Store};

/// A log or a part, which takes bytes in chunks of any size.
#[derive(Debug)]
pub struct Feed(Place);

/// Returns `Ok` if the status is `MTR_DONE`. The other status that its call can have is `MTR_MEMORY`.
pub(crate) fn done(status: u32) -> Result<(), OutOfMemory> {
    match status {
        c::DONE => Ok(()),
        c::MEMORY => Err(OutOfMemory),
        _ => unreachable!("status {status}"),
    }
}

impl Feed {
    /// A log of no bytes so far.
    pub fn log() -> Result<Feed, OutOfMemory> {
        let place = Place::empty();
        // SAFETY: the place is empty, and no other call has it.
        done(unsafe { c::mtr_feed_log(place.raw()) })?;
        Ok(Feed(place))
    }

    /// A part of no bytes so far.
    pub fn part() -> Result<Feed, OutOfMemory> {
        let place = Place::empty();
        // SAFETY: as for a log.
        done(unsafe { c::mtr_feed_part(place.raw()) })?;
        Ok(Feed(place))
    }

    /// Feeds the next chunk. Returns whether more may matter: not if the bytes so far are no log or part. Then add the feed
    /// as it is; recovery says what is wrong. After `Err` bytes are lost, so recovery of this feed fails likewise.
    pub fn feed(&mut self, chunk: &[u8]) -> Result<bool, OutOfMemory> {
        // SAFETY: the chunk is lent for the call.
        match unsafe { c::mtr_feed(self.0.raw(), chunk.as_ptr(), chunk.len()) } {
            c::FAULT => Ok(false),
            status => done(status).map(|()| true),
        }
    }

    /// Notes that the bytes could not be read. Recovery says so too.
    pub fn fail(&mut self) {
        // SAFETY: the place holds a feed, so the call is done.
        unsafe { c::mtr_feed_failed(self.0.raw()) };
    }
}

/// Logs and parts to recover from, each kind numbered in the order in which it was added.
#[derive(Debug)]
pub struct Inputs(Place);

impl Inputs {
    /// No logs and no parts.
    pub const fn new() -> Inputs {
        Inputs(Place::empty())
    }

    /// Appends a log or part. After `Err` it is not there.
    pub fn add(&mut self, feed: Feed) -> Result<(), OutOfMemory> {
        // SAFETY: one place is empty or holds inputs, and the other holds a feed.
        done(unsafe { c::mtr_add(self.0.raw(), feed.0.raw()) })
    }

    /// Returns the store that the rules define for exactly these bytes, or their one fault.
    pub fn recover(self) -> Result<Store, Error> {
        let mut fault = RawFault::default();
        // SAFETY: the place is empty or holds inputs.
        match unsafe { c::mtr_recover(self.0.raw(), &mut fault) } {
            c::FAULT => Err(Fault::from_raw(fault).into()),
            status => {
                done(status)?;
                Ok(Store(self.0))
            }
        }
    }

    /// Recovers as [`recover`](Inputs::recover) does, by threads that the caller starts. `run` is called twice, each time
    /// with about so many tasks or fewer, and lets threads do these. A task that it leaves is done after it. `threads` is
    /// taken as 1 if it is 0, and as 64 if it is more.
    ///
    /// ```
    /// # let mut log = Vec::new();
    /// # mtrecover::records::log_header(&mut log, mtrecover::records::Format::One, 0)?;
    /// # mtrecover::records::mark(&mut log, 5)?;
    /// # let mut feed = mtrecover::Feed::log()?;
    /// # feed.feed(&log)?;
    /// # let mut inputs = mtrecover::Inputs::new();
    /// # inputs.add(feed)?;
    /// let store = inputs.recover_by(4, |tasks| {
    ///     std::thread::scope(|scope| {
    ///         for task in tasks {
    ///             scope.spawn(|| task.work());
    ///         }
    ///     })
    /// })?;
    /// # Ok::<(), Box<dyn std::error::Error>>(())
    /// ```
    pub fn recover_by(self, threads: u32, mut run: impl for<'job> FnMut(&mut [Task<'job>])) -> Result<Store, Error> {
        let Inputs(job) = self;
        let mut fault = RawFault::default();
        // SAFETY: the place is empty or holds inputs.
        match unsafe { c::mtr_prepare(job.raw(), threads.clamp(1, 64), &mut fault) } {
            c::FAULT => return Err(Fault::from_raw(fault).into()),
            status => done(status)?,
        }
        do_step(&job, &mut run)?;
        // SAFETY: the place holds a job, and all its tasks are back; the same below.
        done(unsafe { c::mtr_replay(job.raw()) })?;
        do_step(&job, &mut run)?;
        // SAFETY: the place holds a job, and all its tasks are back.
        done(unsafe { c::mtr_assemble(job.raw()) })?;
        Ok(Store(job))
    }
}

/// Hands out the tasks of a step, and takes them back when they are done.
fn do_step(job: &Place, run: &mut impl for<'job> FnMut(&mut [Task<'job>])) -> Result<(), OutOfMemory> {
    let mut tasks = Vec::new();
    loop {
        let place = Place::empty();
        // SAFETY: one place holds a job, and the other is empty.
        match unsafe { c::mtr_hire(job.raw(), place.raw()) } {
            c::ABSENT => break,
            status => done(status)?,
        }
        tasks.push(Task { place, status: None, job: PhantomData });
    }
    run(&mut tasks);
    for mut task in tasks {
        done(task.status())?;
        // SAFETY: the task was handed out by this job, and is done.
        done(unsafe { c::mtr_join(job.raw(), task.place.raw()) })?;
    }
    Ok(())
}

/// A task of a recovery, which any thread can do. It belongs to one recovery, and cannot be swapped for another's:
///
/// ```compile_fail,E0521
/// # let (one, mut other) = (mtrecover::Inputs::new(), Some(mtrecover::Inputs::new()));
/// let _ = one.recover_by(1, |tasks| {
///     let other = other.take().unwrap();
///     let _ = other.recover_by(1, |others| std::mem::swap(&mut tasks[0], &mut others[0]));
/// });
/// ```
#[derive(Debug)]
pub struct Task<'job> {
    place: Place,
    /// What the task answered, if it was done.
    status: Option<u32>,
    /// Of which job it is: no other lifetime fits.
    job: PhantomData<fn(&'job ()) -> &'job ()>,
}

impl Task<'_> {
    /// Does the task, once. If it runs out of memory, recovery says so.
    pub fn work(&mut self) {
        self.status();
    }

    /// Does the task, if it is not done, and returns what it answered.
    fn status(&mut self) -> u32 {
        // SAFETY: the place holds a task.
        *self.status.get_or_insert_with(|| unsafe { c::mtr_work(self.place.raw()) })
    }
}

impl Default for Inputs {
    fn default() -> Inputs {
        Inputs::new()
    }
}

/// Recovers from logs and parts in memory.
pub fn recover(logs: &[&[u8]], parts: &[&[u8]]) -> Result<Store, Error> {
    let mut inputs = Inputs::new();
    for log in logs {
        let mut feed = Feed::log()?;
        feed.feed(log)?;
        inputs.add(feed)?;
    }
    for part in parts {
        let mut feed = Feed::part()?;
        feed.feed(part)?;
        inputs.add(feed)?;
    }
    inputs.recover()
}
