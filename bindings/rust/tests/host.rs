//! The host over a folder. `tests/hosts/run` plays its lives.

use mtrecover::host::{self, Host, HostError, Part, Settings};
use mtrecover::records::{self, Column, Format};
use mtrecover::{KeeperError, Store};
use std::fs;
use std::path::{Path, PathBuf};

/// An empty folder, which goes with its test.
struct Folder(PathBuf);

impl Folder {
    fn new(name: &str) -> Folder {
        let path = Path::new(env!("CARGO_TARGET_TMPDIR")).join(name);
        let _ = fs::remove_dir_all(&path);
        fs::create_dir(&path).unwrap();
        Folder(path)
    }

    fn settings(&self) -> Settings {
        Settings { folder: self.0.clone(), logs: 2, segment: 500, checkpoint: 2000, max_late: None, accept_loss: false }
    }

    /// Opens the folder. Returns its store too.
    fn open(&self) -> (Host, Option<Store>) {
        let mut opened = host::open(self.settings()).unwrap();
        let store = opened.store.take();
        (opened.start(entries).unwrap(), store)
    }

    fn refusal(&self) -> String {
        host::open(self.settings()).err().unwrap().to_string()
    }

    /// The salts of its logs.
    fn salts(&self) -> Vec<Vec<u8>> {
        self.names(".mtl").iter().map(|name| fs::read(self.0.join(name)).unwrap()[4..12].to_vec()).collect()
    }

    /// The names that end so.
    fn names(&self, ending: &str) -> Vec<String> {
        let names = fs::read_dir(&self.0).unwrap().map(|file| file.unwrap().file_name().into_string().unwrap());
        names.filter(|name| name.ends_with(ending)).collect()
    }
}

impl Drop for Folder {
    fn drop(&mut self) {
        let _ = fs::remove_dir_all(&self.0);
    }
}

/// What each checkpoint has: the key of the test that makes some.
fn entries(part: &mut Part) -> Result<(), HostError> {
    part.entry(1, b"a", &[Column::new(0, b"v")])
}

fn put(host: &Host, log: usize, key: &str) -> u64 {
    host.put(log, key.as_bytes(), &[Column::new(0, b"v")]).unwrap()
}

#[test]
fn an_empty_folder_has_no_store() {
    let folder = Folder::new("empty");
    let (host, store) = folder.open();
    assert!(store.is_none());
    host.close().unwrap();
}

#[test]
fn what_is_durable_is_recovered() {
    let folder = Folder::new("durable");
    let (host, _) = folder.open();
    put(&host, 0, "a");
    put(&host, 1, "b");
    let stamp = host.remove(0, b"b").unwrap();
    host.wait(stamp).unwrap();
    drop(host);
    let (host, store) = folder.open();
    let store = store.unwrap();
    assert_eq!((store.contains_key(b"a"), store.contains_key(b"b")), (true, false));
    assert!(put(&host, 0, "c") >= store.report().cutoff);
}

#[test]
fn what_was_put_is_synced_at_the_end() {
    let folder = Folder::new("end");
    let (host, _) = folder.open();
    put(&host, 1, "a");
    host.close().unwrap();
    assert!(folder.open().1.unwrap().contains_key(b"a"));
}

#[test]
fn each_file_has_a_salt_of_its_own() {
    let folder = Folder::new("salts");
    let mut salts = Vec::new();
    for _ in 0..3 {
        let (host, _) = folder.open();
        host.close().unwrap();
        salts.extend(folder.salts());
    }
    salts.sort();
    salts.dedup();
    assert_eq!(salts.len(), 6);
}

#[test]
fn a_log_of_format_3_goes_on_in_format_4() {
    let folder = Folder::new("old");
    let mut log = Vec::new();
    records::segment_header(&mut log, 0, 0, 0).unwrap();
    records::put(&mut log, Format::Two, 1, 1, b"a", &[Column::new(0, b"v")]).unwrap();
    records::mark(&mut log, 2).unwrap();
    fs::write(folder.0.join("0-0.mtl"), log).unwrap();
    let (host, store) = folder.open();
    assert!(store.unwrap().contains_key(b"a"));
    host.wait(put(&host, 0, "b")).unwrap();
    host.close().unwrap();
    let store = folder.open().1.unwrap();
    assert!(store.contains_key(b"a") && store.contains_key(b"b"));
    let mut names = folder.names(".mtl");
    names.retain(|name| fs::read(folder.0.join(name)).unwrap().starts_with(b"MTL4"));
    names.sort();
    assert_eq!(names, ["0-1.mtl", "1-0.mtl"]);
}

#[test]
fn a_put_waits_while_a_log_holds_much() {
    let folder = Folder::new("much");
    let settings = Settings { checkpoint: u64::MAX, ..folder.settings() };
    let host = host::open(settings).unwrap().start(entries).unwrap();
    let value = [7; 60_000];
    let columns: Vec<Column> = (0..60).map(|number| Column::new(number, &value)).collect();
    for _ in 0..6 {
        host.put(0, b"a", &columns).unwrap();
    }
    host.close().unwrap();
    assert_eq!(folder.open().1.unwrap().get(b"a", 59), Some(value.to_vec()));
}

#[test]
fn checkpoints_make_segments_old() {
    let folder = Folder::new("segments");
    let (host, _) = folder.open();
    let is_old = || !folder.names("-0.mtc").is_empty() && !folder.names(".mtl").contains(&"0-0.mtl".to_string());
    // On a busy machine the thread of checkpoints comes late.
    for n in 0..20_000 {
        if is_old() {
            break;
        }
        host.wait(put(&host, n % 2, "a")).unwrap();
    }
    host.close().unwrap();
    assert!(is_old());
    let store = folder.open().1.unwrap();
    assert!(store.report().checkpoint.is_some() && store.contains_key(b"a"));
}

/// Runs a host whose checkpoints have these entries. Returns the names that they leave.
fn parts_of(name: &str, entries: impl FnMut(&mut Part) -> Result<(), HostError> + Send + 'static) -> Vec<String> {
    let folder = Folder::new(name);
    let host = host::open(folder.settings()).unwrap().start(entries).unwrap();
    for _ in 0..100 {
        host.wait(put(&host, 0, "a")).unwrap();
    }
    host.close().unwrap();
    [folder.names(".mtc"), folder.names(".new")].concat()
}

#[test]
fn a_checkpoint_that_fails_is_given_up() {
    assert!(parts_of("failing", |_| Err(HostError::new("a key", "lost"))).is_empty());
}

#[test]
fn a_checkpoint_whose_keys_do_not_rise_is_given_up() {
    for keys in [[b"b", b"a"], [b"a", b"a"]] {
        let entry = |part: &mut Part, key: &[u8]| part.entry(1, key, &[Column::new(0, b"v")]);
        let entries = move |part: &mut Part| keys.iter().try_for_each(|&key| entry(part, key));
        assert!(parts_of("falling", entries).is_empty());
    }
}

/// Two logs, of which one was put back as it was 20 updates ago. Each update is a take in each log, with a mark.
fn older_copy(name: &str) -> Folder {
    let folder = Folder::new(name);
    let settings = Settings { segment: u64::MAX, checkpoint: u64::MAX, ..folder.settings() };
    let host = host::open(settings).unwrap().start(entries).unwrap();
    host.wait(put(&host, 1, "a")).unwrap();
    let copy = fs::read(folder.0.join("1-0.mtl")).unwrap();
    for _ in 0..20 {
        host.wait(put(&host, 0, "a")).unwrap();
    }
    host.close().unwrap();
    fs::write(folder.0.join("1-0.mtl"), copy).unwrap();
    folder
}

// The first log begins with a mark at 1. So the first put has the stamp 2, and log 1 a mark at 3, where its copy ends. Log 0 has
// that mark too, and those of the other puts.
const LOST: &str = "0-0.mtl: 21 marks at or past the cutoff; 1-0.mtl ends at 3";

#[test]
fn an_older_copy_of_a_log_is_refused() {
    let folder = older_copy("older");
    let read = || fs::read(folder.0.join("0-0.mtl")).unwrap();
    let before = read();
    assert_eq!(folder.refusal(), format!("loss: {LOST}"));
    assert!(read() == before && folder.names("LOSS").is_empty());
}

#[test]
fn a_loss_that_is_accepted_is_noted_once() {
    let folder = older_copy("accepted");
    fs::write(folder.0.join("LOSS"), "an older one").unwrap();
    host::open(Settings { accept_loss: true, ..folder.settings() }).unwrap();
    assert_eq!(fs::read_to_string(folder.0.join("LOSS")).unwrap(), format!("an older one\n{LOST}\n"));
    assert_eq!(folder.open().1.unwrap().report().late, 0);
}

#[test]
fn late_updates_are_counted_if_that_is_wanted() {
    let folder = older_copy("counted");
    let few = Settings { max_late: Some(3), ..folder.settings() };
    let refusal = host::open(few).err().unwrap().to_string();
    assert_eq!(refusal, format!("loss: 20 updates late: 1-0.mtl ends at 3; {LOST}"));
}

#[test]
fn a_checkpoint_that_lacks_an_entry_is_given_up() {
    let entries = |part: &mut Part| part.entry(1, b"a", &[]).or(Ok(()));
    assert!(parts_of("lacking", entries).is_empty());
}

#[test]
fn a_folder_has_one_host() {
    let folder = Folder::new("one");
    let (host, _) = folder.open();
    assert_eq!(folder.refusal(), format!("{}: is locked", folder.0.display()));
    host.close().unwrap();
    folder.open();
}

#[test]
fn a_file_of_another_server_is_refused() {
    let folder = Folder::new("another");
    for name in ["a.mtl", "1-01.mtl", "1-1.mtc"] {
        fs::write(folder.0.join(name), "").unwrap();
        assert_eq!(folder.refusal(), format!("{name}: is of another server"));
        fs::remove_file(folder.0.join(name)).unwrap();
    }
}

#[test]
fn a_host_that_failed_acknowledges_nothing() {
    let folder = Folder::new("failed");
    let (host, _) = folder.open();
    fs::remove_dir_all(&folder.0).unwrap(); // so that no segment follows
    while host.put(0, b"a", &[Column::new(0, b"v")]).is_ok() {}
    assert_eq!(host.remove(1, b"a"), Err(KeeperError::Failed));
    assert!(host.wait(u64::MAX).is_err());
    assert!(host.close().unwrap_err().to_string().contains("No such file"));
}
