//! A host for a server in Rust, over `std::fs`. A *host* owns the files of one folder: the logs of the server and its
//! checkpoints. Threads of the host write, sync, rename and delete these files, while threads of the server put updates and
//! wait until the updates are durable. The server itself opens no file.
//!
//! A server calls [`open`], copies the recovered store into its own table, and calls [`Opened::start`]. Then its threads call
//! [`Host::put`] and [`Host::wait`]. At the end it calls [`Host::close`]. README.md has a complete program.
//!
//! The host does the same as `hosts/host.c`. It rests on functions of the library that are proved. The host itself is tested
//! and not proved: read it before you rely on it.
//!
//! The folder has these files:
//!
//! ```text
//! WORKER-SEGMENT.mtl   a segment of a worker's log
//! NUMBER-0.mtc         a checkpoint, which has one part
//! LOSS                 what was lost in starts that accepted it, a line each
//! NAME.new             a file that is not whole: it takes its name once it is synced
//! ```
//!
//! One lock guards the keeper and all else that the threads share. No thread holds the lock while it writes or syncs. After a
//! write or a sync has failed, nothing is acknowledged any more, because only a restart of the machine shows what the disk
//! has.

extern crate std;

use alloc::borrow::ToOwned;
use alloc::collections::VecDeque;
use alloc::format;
use alloc::string::{String, ToString};
use alloc::sync::Arc;
use alloc::vec::Vec;
use core::error::Error as StdError;
use core::fmt::{self, Display, Formatter};
use core::mem;
use std::fs::{self, File, Permissions};
use std::hash::{BuildHasher, Hasher, RandomState};
use std::io::{self, Read, Write};
use std::os::fd::AsRawFd;
use std::path::PathBuf;
use std::sync::{Condvar, Mutex, MutexGuard};
use std::thread::{self, JoinHandle, Thread};

use crate::keeper::{Buffer, Checkpoint, Keeper, KeeperError, Log, NewLog, PartWriter, Resuming, Segment};
use crate::records::{self, Column, Resumed};
use crate::{Feed, Inputs, OutOfMemory, Report, Store};

/// What a host works on, and how.
#[derive(Clone, Debug)]
pub struct Settings {
    /// The path of the folder. The folder must exist, and its name must be synced: a crash may take a new folder back.
    pub folder: PathBuf,
    /// How many logs the host writes, each on a thread of its own.
    pub logs: usize,
    /// Once the file of a log has this many bytes, the next file follows.
    pub segment: u64,
    /// Once this many bytes of logs were written since the last checkpoint began, the host makes the next one.
    pub checkpoint: u64,
    /// [`open`] refuses to lose more late updates than this number. If it is `None`, [`open`] does not count them.
    pub max_late: Option<u64>,
    /// If true, [`open`] goes on although updates are lost that no crash loses.
    pub accept_loss: bool,
}

/// What a host could not do, and why.
#[derive(Clone, Debug, PartialEq, Eq)]
pub struct HostError {
    what: String,
    why: String,
}

impl HostError {
    /// Returns the error that says what could not be done, and why.
    pub fn new(what: &str, why: impl Display) -> HostError {
        HostError { what: what.to_owned(), why: why.to_string() }
    }
}

impl Display for HostError {
    fn fmt(&self, f: &mut Formatter<'_>) -> fmt::Result {
        write!(f, "{}: {}", self.what, self.why)
    }
}

impl StdError for HostError {}

/// Says in the error of a call what the call was for.
trait Of<T> {
    fn of(self, what: &str) -> Result<T, HostError>;
}

impl<T, E: Display> Of<T> for Result<T, E> {
    fn of(self, what: &str) -> Result<T, HostError> {
        self.map_err(|why| HostError::new(what, why))
    }
}

// ---- Files ----

/// Entries of a part are written once they have about this many bytes.
const WRITTEN_AT_ONCE: usize = 1 << 18;

/// The bytes of an entry beside its key and its columns.
const ENTRY: usize = 19;

/// The bytes of a column beside its value.
const COLUMN: usize = 3;

/// How many takes a log may run ahead of what is acknowledged. Each take ends with a mark. So a crash leaves at most this many
/// marks of a log at or past the cutoff. If there are more, a start suspects a loss.
const AHEAD: usize = 16;

/// The name of the file in which losses are noted.
const NOTES: &str = "LOSS";

fn name_of_log(segment: Segment) -> String {
    format!("{}-{}.mtl", segment.worker, segment.number)
}

fn name_of_part(number: u32) -> String {
    format!("{number}-0.mtc")
}

/// The argument of `flock`: it locks the file for this process alone, or fails at once.
const ALONE_AT_ONCE: i32 = 2 | 4;

extern "C" {
    fn flock(file: i32, what: i32) -> i32;
}

/// The folder. It is locked as long as it is open.
#[derive(Debug)]
struct Folder {
    path: PathBuf,
    file: File,
}

/// The files that the folder has.
struct Found {
    logs: Vec<Segment>,
    /// The number of the checkpoint of each part.
    parts: Vec<u32>,
}

impl Folder {
    fn open(path: PathBuf) -> Result<Folder, HostError> {
        let name = path.display().to_string();
        let file = File::open(&path).of(&name)?;
        // SAFETY: the call gets two numbers.
        if unsafe { flock(file.as_raw_fd(), ALONE_AT_ONCE) } != 0 {
            let error = io::Error::last_os_error();
            let is_locked = error.kind() == io::ErrorKind::WouldBlock;
            return Err(if is_locked { HostError::new(&name, "is locked") } else { HostError::new(&name, error) });
        }
        Ok(Folder { path, file })
    }

    /// Finds the logs and the parts of the folder. The logs come in the order of their segments.
    fn find(&self) -> Result<Found, HostError> {
        let mut found = Found { logs: Vec::new(), parts: Vec::new() };
        for entry in fs::read_dir(&self.path).of("the folder")? {
            let name = entry.of("the folder")?.file_name().to_string_lossy().into_owned();
            let Some(stem) = name.strip_suffix(".mtl").or(name.strip_suffix(".mtc")) else {
                continue;
            };
            let numbers = stem.split_once('-').and_then(|(one, other)| Some((one.parse().ok()?, other.parse().ok()?)));
            match numbers {
                Some((worker, number)) if name == name_of_log(Segment { worker, number }) => {
                    found.logs.push(Segment { worker, number });
                }
                Some((number, _)) if name == name_of_part(number) => found.parts.push(number),
                _ => return Err(HostError::new(&name, "is of another server")),
            }
        }
        found.logs.sort();
        found.parts.sort();
        Ok(found)
    }

    /// Reads a file after syncing it, so that no crash can take back what recovery reads.
    fn read(&self, name: &str) -> Result<(Vec<u8>, Permissions), HostError> {
        let mut bytes = Vec::new();
        let mut file = File::open(self.path.join(name)).of(name)?;
        file.sync_all().of(name)?;
        file.read_to_end(&mut bytes).of(name)?;
        Ok((bytes, file.metadata().of(name)?.permissions()))
    }

    /// Returns the path of the file NAME.new.
    fn new_path(&self, name: &str) -> PathBuf {
        self.path.join(format!("{name}.new"))
    }

    /// Creates the file NAME.new.
    fn create(&self, name: &str) -> Result<File, HostError> {
        File::create(self.new_path(name)).of(name)
    }

    /// Renames the file NAME.new, which is whole, to NAME. It syncs the file before that and the folder after that, so that no
    /// crash takes the name back.
    fn place(&self, file: &File, name: &str) -> Result<(), HostError> {
        file.sync_all().of(name)?;
        fs::rename(self.new_path(name), self.path.join(name)).of(name)?;
        self.file.sync_all().of(name)
    }

    /// Deletes the file NAME.new. If that fails, the file harms nobody.
    fn discard(&self, name: &str) {
        let _ = fs::remove_file(self.new_path(name));
    }

    /// Deletes a file, and syncs the folder, so that no crash brings the file back.
    fn delete(&self, name: &str) -> Result<(), HostError> {
        fs::remove_file(self.path.join(name)).of(name)?;
        self.file.sync_all().of(name)
    }

    /// Appends those lines to the file LOSS that it does not have yet. The file gets these permissions.
    fn note(&self, lines: &[String], permissions: &Permissions) -> Result<(), HostError> {
        let mut text = match fs::read(self.path.join(NOTES)) {
            Err(error) if error.kind() == io::ErrorKind::NotFound => Vec::new(),
            read => read.of(NOTES)?,
        };
        if text.last().is_some_and(|&byte| byte != b'\n') {
            text.push(b'\n');
        }
        for line in lines {
            if !text.split(|&byte| byte == b'\n').any(|noted| noted == line.as_bytes()) {
                text.extend_from_slice(line.as_bytes());
                text.push(b'\n');
            }
        }
        let mut file = self.create(NOTES)?;
        file.set_permissions(permissions.clone()).of(NOTES)?;
        file.write_all(&text).of(NOTES)?;
        self.place(&file, NOTES)
    }

    /// Creates the file of a log.
    fn create_log(&self, log: &NewLog) -> Result<File, HostError> {
        let name = name_of_log(log.segment());
        let mut file = self.create(&name)?;
        file.write_all(log.bytes()).of(&name)?;
        self.place(&file, &name)?;
        Ok(file)
    }
}

// ---- A start ----

/// A host that has recovered its store, and has no thread yet.
#[derive(Debug)]
pub struct Opened {
    /// The store that was recovered, or `None` if the folder had no logs and no parts.
    pub store: Option<Store>,
    /// The last stamp: no recovered key has a greater version. Use it as the version of each recovered key.
    pub last: u64,
    settings: Settings,
    folder: Folder,
    keeper: Keeper,
    logs: Vec<(Log, File, u64)>,
    /// The number of the checkpoint on which the server stands.
    standing: Option<u32>,
}

/// Opens the folder of the settings, and locks it against other servers. Only hosts may have written this folder. If the
/// folder has logs, `open` recovers their store, and makes the logs ready for more records.
///
/// `open` refuses the losses that `mtrecover resume` refuses, before it changes any file:
///
/// - a log with more than 16 marks at or past the cutoff; and, with [`Settings::max_late`], more late updates than that
///   number. A log that was put back from a copy, or was cut short, leaves such marks and updates in the other logs.
/// - fewer writers than a header of format 4 says: all files of a worker are missing;
/// - a hole before a segment;
/// - records behind a torn tail. If another server wrote segments of format 3, perhaps nothing is lost: run `mtrecover resume`
///   before the first start of a host over them;
/// - a broken part of a checkpoint that is newer than the chosen checkpoint.
///
/// If `open` refuses, put the lost bytes back. With [`Settings::accept_loss`], the host goes on without them, and notes in the
/// file LOSS of the folder what is lost.
pub fn open(settings: Settings) -> Result<Opened, HostError> {
    let folder = Folder::open(settings.folder.clone())?;
    let found = folder.find()?;
    let is_empty = found.logs.is_empty() && found.parts.is_empty();
    let mut opened = if is_empty { begin(settings, folder)? } else { go_on(settings, folder, found)? };
    while opened.logs.len() < opened.settings.logs {
        let new = opened.keeper.begin_log().of("a log")?;
        opened.add(new)?;
    }
    Ok(opened)
}

fn begin(settings: Settings, folder: Folder) -> Result<Opened, HostError> {
    let (keeper, first) = Keeper::begin(salt()).of("the keeper")?;
    let mut opened = Opened { store: None, last: 0, settings, folder, keeper, logs: Vec::new(), standing: None };
    opened.add(first)?;
    Ok(opened)
}

/// A log that the last server left.
struct Old {
    segment: Segment,
    /// The number of workers that its header says.
    workers: u32,
    /// The bytes of the log, and later the bytes that replace them.
    bytes: Vec<u8>,
    permissions: Permissions,
}

impl Old {
    /// Makes the bytes that must replace the log, and keeps them in place of the bytes of the log. Changes no file.
    fn resume(&mut self, report: &Report, salt: u64) -> Result<Resumed, HostError> {
        let name = name_of_log(self.segment);
        let mut bytes = Vec::new();
        let workers = report.writers as u32;
        let resumed = records::resume_log(&mut bytes, &self.bytes, report.cutoff, salt, workers).of(&name)?;
        self.bytes = bytes;
        if resumed.ended {
            return Err(HostError::new(&name, "is ended"));
        }
        Ok(resumed)
    }

    fn is_sealed(&self) -> bool {
        self.bytes.starts_with(b"MTL4")
    }
}

/// Returns whether a file has the name that its header says. This matters because files are deleted by their names. `size` is
/// the size of the header. A file without a whole header passes: as a log it is a fault, and as a part it is not chosen.
fn is_own(bytes: &[u8], size: usize, magic: &[u8], at: usize, numbers: &[u32]) -> bool {
    let numbers: Vec<u8> = numbers.iter().flat_map(|number| number.to_be_bytes()).collect();
    bytes.len() < size || bytes.starts_with(magic) && bytes[at..].starts_with(&numbers)
}

fn expect_own(is_own: bool, name: &str) -> Result<(), HostError> {
    is_own.then_some(()).ok_or("it is not the file of this name").of(name)
}

/// Adds a log or a part to the inputs. If its bytes are wrong, recovery says so.
fn add(inputs: &mut Inputs, feed: Result<Feed, OutOfMemory>, bytes: &[u8]) -> Result<(), OutOfMemory> {
    let mut feed = feed?;
    feed.feed(bytes)?;
    inputs.add(feed)
}

/// Recovers the store from the files that were found. Returns the store, and the logs.
fn recover(folder: &Folder, found: &Found) -> Result<(Store, Vec<Old>), HostError> {
    let mut inputs = Inputs::new();
    let mut logs = Vec::new();
    for &segment in &found.logs {
        let name = name_of_log(segment);
        let (bytes, permissions) = folder.read(&name)?;
        let is_own = match bytes.get(3) {
            Some(b'4') => is_own(&bytes, 44, b"MTL4", 16, &[segment.worker, 0, segment.number]),
            _ => is_own(&bytes, 20, b"MTL3", 12, &[segment.worker, segment.number]),
        };
        expect_own(is_own, &name)?;
        add(&mut inputs, Feed::log(), &bytes).of(&name)?;
        let workers = records::workers_said(&bytes);
        logs.push(Old { segment, workers, bytes, permissions });
    }
    for &number in &found.parts {
        let name = name_of_part(number);
        let (bytes, _) = folder.read(&name)?;
        let is_own = match bytes.get(3) {
            Some(b'4') => is_own(&bytes, 36, b"MTC4", 12, &[number]),
            _ => is_own(&bytes, 20, b"MTC", 4, &[number]),
        };
        expect_own(is_own, &name)?;
        add(&mut inputs, Feed::part(), &bytes).of(&name)?;
    }
    folder.file.sync_all().of("the folder")?;
    Ok((inputs.recover().of("recovery")?, logs))
}

/// Returns a random number.
fn salt() -> u64 {
    RandomState::new().build_hasher().finish()
}

/// Replaces the file of a log by its new bytes, and adds the log to the keeper. Returns the file and its size.
fn replace(folder: &Folder, keeper: &mut Resuming, log: &Old) -> Result<(File, u64), HostError> {
    let name = name_of_log(log.segment);
    let mut file = folder.create(&name)?;
    file.set_permissions(log.permissions.clone()).of(&name)?;
    file.write_all(&log.bytes).of(&name)?;
    folder.place(&file, &name)?;
    keeper.add(&log.bytes).of(&name)?;
    Ok((file, log.bytes.len() as u64))
}

/// Goes on with the files that the last server left.
fn go_on(settings: Settings, folder: Folder, found: Found) -> Result<Opened, HostError> {
    let (store, mut old) = recover(&folder, &found)?;
    let (report, salt) = (store.report(), salt());
    let resumed = (0..).zip(&mut old).map(|(n, log)| log.resume(&report, salt.wrapping_add(n)));
    let resumed: Vec<Resumed> = resumed.collect::<Result<_, _>>()?;
    let losses = Losses { settings: &settings, folder: &folder, old: &old, resumed: &resumed, report: &report };
    expect_accepted(&settings, &folder, &losses.lines(&found.parts)?, &old)?;
    let (chosen, others): (Vec<u32>, _) = found.parts.iter().partition(|&&n| report.checkpoint == Some(n.into()));
    for number in others {
        folder.delete(&name_of_part(number))?;
    }
    let greatest = found.parts.last().copied().unwrap_or(0);
    let mut resuming = Keeper::resume(&store, greatest, salt.wrapping_add(old.len() as u64)).of("the keeper")?;
    // Each worker's newest file, and whether it is of format 4. One that is not is followed by one that is.
    let mut files: Vec<(u32, (File, u64), bool)> = Vec::new();
    for log in &old {
        let file = replace(&folder, &mut resuming, log)?;
        if files.last().is_some_and(|(last, ..)| *last == log.segment.worker) {
            files.pop();
        }
        files.push((log.segment.worker, file, log.is_sealed()));
    }
    let (keeper, logs) = resuming.finish().of("the keeper")?;
    let (store, last, standing) = (Some(store), report.cutoff.saturating_sub(1), chosen.first().copied());
    let mut opened = Opened { store, last, settings, folder, keeper, logs: Vec::new(), standing };
    for (log, (_, (file, size), is_sealed)) in logs.into_iter().zip(files) {
        if is_sealed {
            opened.logs.push((log, file, size));
        } else {
            let new = opened.keeper.rotate(log).map_err(|(_, error)| error).of("a segment")?;
            opened.add(new)?;
        }
    }
    Ok(opened)
}

// ---- Losses ----

/// What a start knows of the losses.
struct Losses<'a> {
    settings: &'a Settings,
    folder: &'a Folder,
    old: &'a [Old],
    resumed: &'a [Resumed],
    report: &'a Report,
}

impl Losses<'_> {
    /// Returns a line for each loss that no crash explains.
    fn lines(&self, parts: &[u32]) -> Result<Vec<String>, HostError> {
        let mut lines = Vec::from_iter(self.line_of_writers());
        if self.is_suspect() {
            lines.extend(self.lines_of_logs()?);
        }
        for (part, &number) in (0..).zip(parts) {
            let is_newer = self.report.checkpoint.map_or(true, |chosen| u64::from(number) > chosen);
            // A part got its name whole, so that no crash broke it.
            if is_newer && (self.report.skipped.contains(&number.into()) || self.report.nameless.contains(&part)) {
                lines.push(format!("checkpoint {number} skipped: it is damaged"));
            }
        }
        Ok(lines)
    }

    /// Returns the line that there are fewer writers than a header says. A header counts workers whose files have their names,
    /// and a worker's last file is never deleted. So no crash leaves fewer.
    fn line_of_writers(&self) -> Option<String> {
        let most = self.old.iter().map(|log| log.workers).max().unwrap_or(0);
        let writers = self.report.writers;
        let s = if writers == 1 { "" } else { "s" };
        (writers < most.into()).then(|| format!("{writers} writer{s}, but a header says {most}"))
    }

    fn is_late(&self) -> bool {
        self.settings.max_late.is_some_and(|most| self.report.late > most)
    }

    /// Returns whether recovery lost more of the logs than a crash loses, or may have lost more. If so, the logs are read once
    /// more to find out.
    fn is_suspect(&self) -> bool {
        let has_many = self.resumed.iter().any(|log| log.late_marks > AHEAD as u64);
        let may_go_on = self.report.torn > 0 && self.old.iter().any(|log| !log.is_sealed());
        self.is_late() || self.report.holes > 0 || has_many || may_go_on
    }

    /// Returns a line for each loss of the logs.
    fn lines_of_logs(&self) -> Result<Vec<String>, HostError> {
        let Losses { old, report, .. } = self;
        let mut endings = Vec::new();
        for log in *old {
            let name = name_of_log(log.segment);
            endings.push(records::log_ending(&self.folder.read(&name)?.0).of(&name)?);
        }
        let is_newest = |n: usize| old.get(n + 1).map_or(true, |next| next.segment.worker != old[n].segment.worker);
        let least = (0..old.len()).find(|&n| is_newest(n) && endings[n].last == report.cutoff);
        let end = format!("{} ends at {}", least.map_or(String::new(), |n| name_of_log(old[n].segment)), report.cutoff);
        let mut lines = Vec::new();
        if self.is_late() {
            let s = if report.late == 1 { "" } else { "s" };
            lines.push(format!("{} update{s} late: {end}", report.late));
        }
        for (n, log) in old.iter().enumerate() {
            let marks = self.resumed[n].late_marks;
            if marks > AHEAD as u64 && endings[n].last > report.cutoff {
                lines.push(format!("{}: {marks} marks at or past the cutoff; {end}", name_of_log(log.segment)));
            }
        }
        for (n, (log, ending)) in old.iter().zip(&endings).enumerate() {
            let name = name_of_log(log.segment);
            let Segment { worker, number } = log.segment;
            let is_before = |other: Segment| other.worker == worker && other.number.checked_add(1) == Some(number);
            let before = n.checked_sub(1).filter(|&n| is_before(old[n].segment));
            let (from, last) = (ending.from, before.map_or(u64::MAX, |n| endings[n].last));
            if from > report.begin && last < from && last < report.cutoff {
                lines.push(format!("{name}: a hole from {last} to {from} is before it"));
            }
            if ending.goes_on {
                // Perhaps these are bytes of a value in a torn record of format 3. `mtrecover resume` knows such records.
                let advice = if self.settings.accept_loss { "" } else { " (run mtrecover resume first)" };
                lines.push(format!("{name}: records follow its torn tail{advice}"));
            }
        }
        Ok(lines)
    }
}

/// Refuses losses that are not accepted, before any file is changed, so that what was lost can still be put back. Notes losses
/// that are accepted, because nothing else says what was lost after the logs are replaced.
fn expect_accepted(settings: &Settings, folder: &Folder, lines: &[String], old: &[Old]) -> Result<(), HostError> {
    if lines.is_empty() {
        return Ok(());
    }
    if !settings.accept_loss {
        return Err(HostError::new("loss", lines.join("; ")));
    }
    for line in lines {
        let _ = writeln!(io::stderr(), "host: loss: {line}");
    }
    folder.note(lines, &old[0].permissions)
}

impl Opened {
    /// Creates the file of a log.
    fn add(&mut self, new: NewLog) -> Result<(), HostError> {
        let file = self.folder.create_log(&new)?;
        self.logs.push((self.keeper.created(new).of("a log")?, file, 0));
        Ok(())
    }

    /// Starts the threads of the host. Call it after the server has copied the store into its own table.
    ///
    /// When the host makes a checkpoint, it calls `entries` on a thread of its own. `entries` must give [`Part::entry`] each
    /// key of the server that has columns, in the order of keys, compared byte by byte. It must read each key after this call
    /// of `entries` began. If `entries` returns an `Err`, the host gives the checkpoint up, and deletes nothing for it.
    pub fn start<E>(self, entries: E) -> Result<Host, HostError>
    where
        E: FnMut(&mut Part) -> Result<(), HostError> + Send + 'static,
    {
        let Opened { store: _, last, settings, folder, keeper, logs, standing } = self;
        let below = keeper.acknowledged_below();
        let mut state = State { keeper, logs: Vec::new(), last, below, written: 0, waiters: Vec::new(), failure: None, is_closing: false };
        let mut writers = Vec::new();
        for (log, file, size) in logs {
            let buffer = Buffer::new();
            let marks = VecDeque::new();
            writers.push(Writer { number: state.logs.len(), file, size, covered: last, marks, buffer });
            state.logs.push(Some(log));
        }
        let (work, done) = (Condvar::new(), Condvar::new());
        let shared = Arc::new(Shared { settings, folder, state: Mutex::new(state), work, done });
        let mut host = Host { shared, threads: Vec::new() };
        for writer in writers {
            host.spawn(move |shared| shared.write_log(writer))?;
        }
        host.spawn(move |shared| shared.write_checkpoints(standing, entries))?;
        Ok(host)
    }
}

// ---- A host ----

/// A host with its threads. If it is dropped, it is closed, as [`Host::close`] does.
#[derive(Debug)]
pub struct Host {
    shared: Arc<Shared>,
    threads: Vec<JoinHandle<()>>,
}

#[derive(Debug)]
struct Shared {
    settings: Settings,
    folder: Folder,
    state: Mutex<State>,
    /// Signalled when there may be something to write.
    work: Condvar,
    /// Signalled when something was synced, when a log takes records again, and when the host failed or is closing.
    done: Condvar,
}

/// The values that the lock guards.
#[derive(Debug)]
struct State {
    keeper: Keeper,
    /// The newest file of each worker's log. If it is `None`, the next file is being made, and until then the log takes no
    /// record.
    logs: Vec<Option<Log>>,
    /// The last stamp.
    last: u64,
    /// All updates whose stamps are below this number may be acknowledged.
    below: u64,
    /// How many bytes of logs were written since the last checkpoint began.
    written: u64,
    /// The threads that wait, each until the update with this stamp is durable.
    waiters: Vec<(u64, Thread)>,
    /// The first failure, if the host failed.
    failure: Option<HostError>,
    is_closing: bool,
}

impl State {
    /// Appends an update to one of the logs. `Early`: the thread of this log has to write earlier records first.
    fn append(
        &mut self,
        log: usize,
        update: impl Fn(&mut Keeper, &Log) -> Result<u64, KeeperError>,
    ) -> Result<u64, KeeperError> {
        match self.logs.get(log).ok_or(KeeperError::NotLawful)? {
            Some(log) => update(&mut self.keeper, log),
            None if self.failure.is_none() => Err(KeeperError::Early),
            None => Err(KeeperError::Failed),
        }
    }
}

impl Host {
    fn spawn(&mut self, work: impl FnOnce(&Shared) -> Result<(), HostError> + Send + 'static) -> Result<(), HostError> {
        let shared = Arc::clone(&self.shared);
        let run = move || work(&shared).unwrap_or_else(|error| shared.fail(error));
        self.threads.push(thread::Builder::new().spawn(run).of("a thread")?);
        Ok(())
    }

    /// Appends a put of these columns of the key to a log, and returns the stamp of the update. `log` is the number of the
    /// log, from 0 on and below [`Settings::logs`]. The numbers of the columns must rise. If the thread of the log has to
    /// write earlier records first, the call waits for it. It does not wait until the update is durable: [`Host::wait`] does.
    ///
    /// Hold one lock while you make this call and change the key in the server's own table, so that the stamps of a key rise
    /// in the order of its changes.
    pub fn put(&self, log: usize, key: &[u8], columns: &[Column]) -> Result<u64, KeeperError> {
        self.update(log, |keeper, log| keeper.put(log, key, columns))
    }

    /// Appends a remove of the key to a log. A remove takes all columns from the key. All else is as for [`Host::put`].
    pub fn remove(&self, log: usize, key: &[u8]) -> Result<u64, KeeperError> {
        self.update(log, |keeper, log| keeper.remove(log, key))
    }

    /// Appends an erase to a log. An erase takes the columns with these numbers from the key. The numbers must rise. All else
    /// is as for [`Host::put`].
    pub fn erase(&self, log: usize, key: &[u8], numbers: &[u8]) -> Result<u64, KeeperError> {
        self.update(log, |keeper, log| keeper.erase(log, key, numbers))
    }

    fn update(
        &self,
        log: usize,
        update: impl Fn(&mut Keeper, &Log) -> Result<u64, KeeperError>,
    ) -> Result<u64, KeeperError> {
        let mut stamp = Err(KeeperError::Early);
        let is_early = |state: &mut State| {
            stamp = state.append(log, &update);
            stamp == Err(KeeperError::Early)
        };
        let mut state = self.shared.done.wait_while(self.shared.lock(), is_early).unwrap();
        state.last = stamp?;
        self.shared.work.notify_all();
        stamp
    }

    /// Waits until the update with this stamp and all earlier updates may be acknowledged, or shown to clients. An `Err` says
    /// that the host failed, and then the update may be lost. If the host failed because of a write or a sync, restart the
    /// machine before you open the folder again.
    pub fn wait(&self, stamp: u64) -> Result<(), HostError> {
        let mut state = self.shared.lock();
        while state.below <= stamp && state.failure.is_none() {
            state.waiters.push((stamp, thread::current()));
            drop(state);
            thread::park();
            state = self.shared.lock();
        }
        match &state.failure {
            Some(failure) if state.below <= stamp => Err(failure.clone()),
            _ => Ok(()),
        }
    }

    /// Syncs all updates that were put, and ends the threads. An `Err` says that the host failed before.
    pub fn close(mut self) -> Result<(), HostError> {
        self.end();
        self.shared.lock().failure.take().map_or(Ok(()), Err)
    }

    fn end(&mut self) {
        self.shared.lock().is_closing = true;
        self.shared.work.notify_all();
        self.shared.done.notify_all();
        for thread in mem::take(&mut self.threads) {
            if thread.join().is_err() {
                self.shared.fail(HostError::new("a thread", "panicked"));
            }
        }
    }
}

impl Drop for Host {
    fn drop(&mut self) {
        self.end();
    }
}

impl Shared {
    fn lock(&self) -> MutexGuard<'_, State> {
        self.state.lock().unwrap()
    }

    /// Waits until the condition `is_so` holds, or the host failed.
    fn wait(&self, condition: &Condvar, is_so: impl Fn(&State) -> bool) -> MutexGuard<'_, State> {
        condition.wait_while(self.lock(), |state| !is_so(state) && state.failure.is_none()).unwrap()
    }

    /// Wakes all threads whose wait is over.
    fn tell(&self, state: &mut State) {
        let State { below, waiters, failure, .. } = state;
        waiters.retain(|(stamp, thread)| {
            let waits = stamp >= below && failure.is_none();
            if !waits {
                thread.unpark();
            }
            waits
        });
        self.done.notify_all();
    }

    /// Notes that the host failed. From now on nothing is acknowledged any more.
    fn fail(&self, error: HostError) {
        let mut state = self.lock();
        state.keeper.failed();
        state.failure.get_or_insert(error);
        self.work.notify_all();
        self.tell(&mut state);
    }
}

// ---- Logs ----

/// The values of the thread of one worker's log.
struct Writer {
    /// The number of the log among the logs of the host.
    number: usize,
    file: File,
    size: u64,
    /// The last stamp of the host at the time of the last take that is synced.
    covered: u64,
    /// The marks of the last takes. The mark at the beginning of the file counts as a take.
    marks: VecDeque<u64>,
    buffer: Buffer,
}

impl Writer {
    /// Notes the mark of a take. The mark at the beginning of the file is not above the mark of the first take, so the first
    /// take notes its mark twice.
    fn note_mark(&mut self, mark: u64) {
        if self.marks.is_empty() {
            self.marks.push_back(mark);
        }
        if self.marks.len() == AHEAD {
            self.marks.pop_front();
        }
        self.marks.push_back(mark);
    }

    /// Returns whether the log has to wait for the other logs: the mark of the take `AHEAD` takes ago is not below what is
    /// acknowledged. The log that is behind all others never waits.
    fn is_ahead(&self, below: u64) -> bool {
        self.marks.len() == AHEAD && self.marks[0] >= below
    }
}

impl Shared {
    /// Does the work of the thread of a log. Each update waits for all logs. So each log is synced after each update, also if
    /// the update is in another log.
    fn write_log(&self, mut writer: Writer) -> Result<(), HostError> {
        loop {
            drop(self.wait(&self.work, |state| writer.covered < state.last || state.is_closing));
            let state = self.wait(&self.done, |state| !writer.is_ahead(state.below));
            if state.failure.is_some() || writer.covered >= state.last {
                return Ok(());
            }
            self.commit(&mut writer, state)?;
        }
    }

    /// Writes and syncs all that was appended to the log, with a mark after it, if there is room for a mark. If the file of
    /// the log is full, the next file follows.
    fn commit(&self, writer: &mut Writer, mut state: MutexGuard<'_, State>) -> Result<(), HostError> {
        let last = state.last;
        let log = state.logs[writer.number].take().expect("its thread alone takes it");
        let marked = state.keeper.mark(&log);
        if marked != Err(KeeperError::Early) {
            marked.of("a mark")?;
        }
        writer.note_mark(last + 1);
        let taken = state.keeper.take(&log, &mut writer.buffer).of("records")?;
        let full = if writer.size >= self.settings.segment {
            Some(log)
        } else {
            state.logs[writer.number] = Some(log);
            None
        };
        drop(state);
        writer.file.write_all(&taken).of("a log")?;
        writer.file.sync_data().of("a log")?;
        let mut state = self.lock();
        writer.covered = if marked.is_ok() { last } else { writer.covered };
        writer.size += taken.len() as u64;
        state.written += taken.len() as u64;
        state.keeper.synced(taken).of("a sync")?;
        state.below = state.keeper.acknowledged_below();
        self.tell(&mut state);
        drop(state);
        full.map_or(Ok(()), |log| self.rotate(writer, log))
    }

    /// Begins the next file of the log.
    fn rotate(&self, writer: &mut Writer, log: Log) -> Result<(), HostError> {
        let new = self.lock().keeper.rotate(log).map_err(|(_, error)| error).of("a segment")?;
        writer.file = self.folder.create_log(&new)?;
        writer.size = 0;
        let mut state = self.lock();
        state.logs[writer.number] = Some(state.keeper.created(new).of("a segment")?);
        self.done.notify_all();
        Ok(())
    }
}

// ---- Checkpoints ----

/// A checkpoint that the host is making. [`Part::entry`] writes its entries.
#[derive(Debug)]
pub struct Part {
    file: File,
    writer: PartWriter,
    buffer: Buffer,
    /// About how many bytes of entries are not written yet.
    waiting: usize,
    /// Whether an entry could not be written.
    is_lost: bool,
}

impl Part {
    /// Writes the entry of one key to the checkpoint. `columns` are all columns that the key has, and their numbers must rise.
    /// `version` is the stamp of the last update of the key, or [`Opened::last`] if the key was not updated since [`open`].
    /// Read the columns and the version in one step, between two updates of the key. Write no entry for a key without columns.
    /// Each key must be above the last one, compared byte by byte. After an `Err`, the host gives the checkpoint up, and
    /// deletes nothing for it.
    pub fn entry(&mut self, version: u64, key: &[u8], columns: &[Column]) -> Result<(), HostError> {
        let written = self.append(version, key, columns);
        self.is_lost |= written.is_err();
        written
    }

    fn append(&mut self, version: u64, key: &[u8], columns: &[Column]) -> Result<(), HostError> {
        let appended = self.writer.entry(version, key, columns);
        if appended == Err(KeeperError::NotLawful) {
            return Err(HostError::new("an entry", "its key is not above the last one, or no part may have it"));
        }
        appended.of("an entry")?;
        let values: usize = columns.iter().map(|column| COLUMN + column.length()).sum();
        self.waiting += ENTRY + key.len() + values;
        if self.waiting >= WRITTEN_AT_ONCE {
            self.write()?;
        }
        Ok(())
    }

    /// Writes the bytes of the part that are ready for its file.
    fn write(&mut self) -> Result<(), HostError> {
        self.waiting = 0;
        let taken = self.writer.take(&mut self.buffer).of("a part")?;
        self.file.write_all(taken).of("a part")
    }
}

impl Shared {
    /// Does the work of the thread of checkpoints.
    fn write_checkpoints(
        &self,
        mut standing: Option<u32>,
        mut entries: impl FnMut(&mut Part) -> Result<(), HostError>,
    ) -> Result<(), HostError> {
        loop {
            let is_time = |state: &State| state.written >= self.settings.checkpoint;
            let mut state = self.wait(&self.done, |state| is_time(state) || state.is_closing);
            if state.failure.is_some() || state.is_closing {
                return Ok(());
            }
            let checkpoint = state.keeper.begin_checkpoint().of("a checkpoint")?;
            state.last = checkpoint.begin;
            state.written = 0;
            drop(state);
            self.work.notify_all();
            let name = name_of_part(checkpoint.number);
            match self.make_part(&name, checkpoint, &mut entries) {
                Ok((file, end)) => {
                    self.folder.place(&file, &name)?;
                    self.wait(&self.done, |state| state.below > end).keeper.stand().of("a checkpoint")?;
                    self.delete_old(standing.replace(checkpoint.number))?;
                }
                Err(error) => {
                    let _ = writeln!(io::stderr(), "host: {error}"); // the checkpoint is given up
                    self.folder.discard(&name);
                    self.lock().keeper.abandon_checkpoint().of("a checkpoint")?;
                }
            }
        }
    }

    /// Writes the part of a checkpoint to the file NAME.new. Returns this file, and the end of the checkpoint.
    fn make_part(
        &self,
        name: &str,
        checkpoint: Checkpoint,
        entries: &mut impl FnMut(&mut Part) -> Result<(), HostError>,
    ) -> Result<(File, u64), HostError> {
        let file = self.folder.create(name)?;
        let writer = PartWriter::begin(salt(), &checkpoint, 0, 1).of("a part")?;
        let mut part = Part { file, writer, buffer: Buffer::new(), waiting: 0, is_lost: false };
        entries(&mut part)?;
        if part.is_lost {
            return Err(HostError::new(name, "lacks an entry"));
        }
        let end = self.lock().keeper.end_checkpoint().of("a checkpoint")?;
        part.writer.end(end).of("a part")?;
        part.write()?;
        Ok((part.file, end))
    }

    /// Deletes the files that are old now, because the server stands on a newer checkpoint: the part of the checkpoint before,
    /// and segments.
    fn delete_old(&self, older: Option<u32>) -> Result<(), HostError> {
        if let Some(number) = older {
            self.folder.delete(&name_of_part(number))?;
        }
        loop {
            let old = self.lock().keeper.next_to_delete();
            let Some(old) = old else {
                return Ok(());
            };
            self.folder.delete(&name_of_log(old.segment()))?;
            self.lock().keeper.deleted(old).of("a segment")?;
        }
    }
}
