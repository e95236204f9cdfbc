//! A key-value server in memory that keeps what it acknowledged, over `mtrecover::host`: server.c in Rust.
//!
//!     server DIR SOCKET LOGS SEGMENT CHECKPOINT
//!
//! The folder DIR has LOGS logs, in segments of about SEGMENT bytes; a checkpoint is made once CHECKPOINT bytes of logs were
//! written. Clients connect to SOCKET, and ask line by line:
//!
//!     set KEY VALUE    put KEY VERSION VALUE    the update is made
//!                      ack KEY VERSION VALUE    it is durable
//!     del KEY          likewise, with the VALUE -
//!     get KEY          has KEY VALUE            with the VALUE - if there is none
//!     range KEY N      has KEY VALUE            the first N keys from KEY on that have a value
//!                      end
//!
//! What it shows is durable too. Kill it at any moment, and start it again over the same folder. It prints `ready` once it
//! listens. SIGTERM ends it after the requests that are under way.
use mtrecover::host::{self, Host, HostError, Part, Settings};
use mtrecover::records::Column;
use mtrecover::Store;
use std::collections::BTreeMap;
use std::error::Error;
use std::fs::{self, File};
use std::io::{self, BufRead, BufReader, Write};
use std::ops::Bound;
use std::os::fd::OwnedFd;
use std::os::unix::net::UnixListener;
use std::sync::{Arc, Mutex, RwLock};
use std::{env, iter, process, ptr, thread};

type Outcome<T> = Result<T, Box<dyn Error + Send + Sync>>;

/// Ends the server if this failed.
fn must<T, E: std::fmt::Display>(result: Result<T, E>) -> T {
    result.unwrap_or_else(|error| {
        eprintln!("server: {error}");
        process::exit(1)
    })
}

/// What a key has that ever had a value. The value is empty if there is none any more.
#[derive(Clone, Default)]
struct Entry {
    value: String,
    version: u64,
}

impl Entry {
    fn columns(&self) -> [Column<'_>; 1] {
        [Column::new(0, self.value.as_bytes())]
    }

    fn shown(&self) -> &str {
        Some(&*self.value).filter(|value| !value.is_empty()).unwrap_or("-")
    }
}

struct Table(Mutex<BTreeMap<String, Entry>>);

impl Table {
    /// The recovered store. No key has a version above this one.
    fn of(store: Option<&Store>, version: u64) -> Outcome<Table> {
        let mut table = BTreeMap::new();
        for mut pair in store.iter().flat_map(|store| store.range(..)) {
            let value = String::from_utf8(pair.columns.swap_remove(0).1)?;
            table.insert(String::from_utf8(pair.key)?, Entry { value, version });
        }
        Ok(Table(Mutex::new(table)))
    }

    /// Returns the first key within the bound, with its entry, in one step.
    fn find(&self, from: Bound<&str>) -> Option<(String, Entry)> {
        let table = self.0.lock().unwrap();
        let (key, entry) = table.range::<str, _>((from, Bound::Unbounded)).next()?;
        Some((key.clone(), entry.clone()))
    }

    /// Returns the keys from this one on, each with its entry as it is when its turn comes.
    fn entries<'t>(&'t self, start: &str) -> impl Iterator<Item = (String, Entry)> + 't {
        let first = self.find(Bound::Included(start));
        iter::successors(first, |(key, _)| self.find(Bound::Excluded(key)))
    }

    /// Gives a checkpoint each key that has a value.
    fn checkpoint(&self, part: &mut Part) -> Result<(), HostError> {
        let mut entries = self.entries("").filter(|(_, entry)| !entry.value.is_empty());
        entries.try_for_each(|(key, entry)| part.entry(entry.version, key.as_bytes(), &entry.columns()))
    }

    /// Sets the key to the value, or removes it if that is empty, in one step with the record in a log.
    fn update(&self, host: &Host, log: usize, key: &str, value: &str) -> Entry {
        let mut table = self.0.lock().unwrap();
        let mut entry = Entry { value: value.to_string(), version: 0 };
        entry.version = must(match value {
            "" => host.remove(log, key.as_bytes()),
            _ => host.put(log, key.as_bytes(), &entry.columns()),
        });
        table.insert(key.to_string(), entry.clone());
        entry
    }
}

/// A client, and the log of its updates.
struct Client<'s> {
    socket: File,
    log: usize,
    table: &'s Table,
}

impl Client<'_> {
    /// Tells a line by one call.
    fn tell(&mut self, line: String) -> Outcome<()> {
        let count = self.socket.write(line.as_bytes())?;
        (count == line.len()).then_some(()).ok_or_else(|| "a short write".into())
    }

    fn answer(&mut self, host: &Host, line: &str) -> Outcome<()> {
        match line.split_whitespace().collect::<Vec<_>>()[..] {
            ["set", key, value] if line.len() < 512 => self.update(host, key, value),
            ["del", key] if line.len() < 512 => self.update(host, key, ""),
            ["get", key] => {
                let found = self.table.find(Bound::Included(key)).filter(|(found, _)| found == key);
                let entry = found.unwrap_or_default().1;
                must(host.wait(entry.version));
                self.tell(format!("has {key} {}\n", entry.shown()))
            }
            ["range", key, n] => self.range(host, key, n.parse()?),
            _ => self.tell("wrong\n".to_string()),
        }
    }

    fn update(&mut self, host: &Host, key: &str, value: &str) -> Outcome<()> {
        let entry = self.table.update(host, self.log, key, value);
        let told = format!("{key} {} {}\n", entry.version, entry.shown());
        self.tell(format!("put {told}"))?;
        must(host.wait(entry.version));
        self.tell(format!("ack {told}"))
    }

    /// Shows n keys that have a value. That a key has none any more must be durable too.
    fn range(&mut self, host: &Host, start: &str, n: usize) -> Outcome<()> {
        let durable = self.table.entries(start).inspect(|(_, entry)| must(host.wait(entry.version)));
        for (key, entry) in durable.filter(|(_, entry)| !entry.value.is_empty()).take(n) {
            self.tell(format!("has {key} {}\n", entry.value))?;
        }
        self.tell("end\n".to_string())
    }

    /// Serves the client until it goes, or the host is closed.
    fn serve(&mut self, host: &RwLock<Option<Host>>) -> Outcome<()> {
        for line in BufReader::new(self.socket.try_clone()?).lines() {
            match (line?, &*host.read().unwrap()) {
                (line, Some(host)) => self.answer(host, &line)?,
                (_, None) => break,
            }
        }
        Ok(())
    }
}

extern "C" {
    fn sigemptyset(set: *mut [u64; 16]) -> i32;
    fn sigaddset(set: *mut [u64; 16], signal: i32) -> i32;
    fn pthread_sigmask(how: i32, set: *const [u64; 16], old: *mut [u64; 16]) -> i32;
    fn sigwait(set: *const [u64; 16], signal: *mut i32) -> i32;
}

fn run() -> Outcome<()> {
    let args: Vec<String> = env::args().collect();
    let [_, folder, socket, logs, segment, checkpoint] = &args[..] else {
        return Err("usage: server DIR SOCKET LOGS SEGMENT CHECKPOINT".into());
    };
    let (mut ends, mut ended) = ([0; 16], 0);
    // SAFETY: a set of signals has this size. SIGTERM (15) is blocked (0) before a thread starts.
    unsafe { (sigemptyset(&mut ends), sigaddset(&mut ends, 15), pthread_sigmask(0, &ends, ptr::null_mut())) };
    let logs = logs.parse()?;
    let settings = Settings {
        folder: folder.into(),
        logs,
        segment: segment.parse()?,
        checkpoint: checkpoint.parse()?,
        max_late: None,
        accept_loss: false,
    };
    let opened = host::open(settings)?;
    let table = Arc::new(Table::of(opened.store.as_ref(), opened.last)?);
    let read = Arc::clone(&table);
    // A request reads the host, so that it is closed under none.
    let host = Arc::new(RwLock::new(Some(opened.start(move |part| read.checkpoint(part))?)));
    let _ = fs::remove_file(socket);
    let (listener, shared) = (UnixListener::bind(socket)?, Arc::clone(&host));
    thread::Builder::new().spawn(move || {
        for (number, client) in listener.incoming().flatten().enumerate() {
            let (socket, table, host) = (File::from(OwnedFd::from(client)), Arc::clone(&table), Arc::clone(&shared));
            let serve = move || Client { socket, log: number % logs, table: &table }.serve(&host);
            let _ = thread::Builder::new().spawn(serve);
        }
    })?;
    writeln!(io::stdout(), "ready")?;
    // SAFETY: as above.
    unsafe { sigwait(&ends, &mut ended) };
    let closing = host.write().unwrap().take();
    Ok(closing.map_or(Ok(()), Host::close)?)
}

fn main() {
    must(run());
}
