//! The host of the Rust crate, for lives.c.
use mtrecover::host::{self, Host, HostError, Opened, Part, Settings};
use mtrecover::records::Column;
use std::sync::{Mutex, RwLock};

#[repr(C)]
pub struct Entry {
    key: [u8; 8],
    value: [u8; 200],
    version: u64,
}

extern "C" {
    fn spare_memory();
    fn recovered(key: *const u8, key_length: usize, value: *const u8, value_length: usize);
    fn entry_at(number: u32, entry: &mut Entry) -> bool;
}

static OPENED: Mutex<Option<Opened>> = Mutex::new(None);
static HOST: RwLock<Option<Host>> = RwLock::new(None);

fn text(bytes: &[u8]) -> &[u8] {
    bytes.split(|&byte| byte == 0).next().unwrap_or(bytes)
}

/// Returns what was done, or tells why not.
fn told<T>(result: Result<T, HostError>) -> Option<T> {
    result.inspect_err(|error| eprintln!("host: {error}")).ok()
}

fn open(logs: u32, segment: u64, checkpoint: u64, accept_loss: bool) -> Option<Opened> {
    let (folder, logs) = ("/sim".into(), logs as usize);
    told(host::open(Settings { folder, logs, segment, checkpoint, max_late: None, accept_loss }))
}

fn entries(part: &mut Part) -> Result<(), HostError> {
    let mut entry = Entry { key: [0; 8], value: [0; 200], version: 0 };
    let mut number = 0;
    // SAFETY: the call fills the entry.
    while unsafe { entry_at(number, &mut entry) } {
        if entry.value[0] != 0 {
            part.entry(entry.version, text(&entry.key), &[Column::new(0, text(&entry.value))])?;
        }
        number += 1;
    }
    Ok(())
}

#[no_mangle]
extern "C" fn host_open(logs: u32, segment: u64, checkpoint: u64, accepts_loss: bool, last: &mut u64) -> bool {
    let Some(opened) = open(logs, segment, checkpoint, accepts_loss) else {
        return false;
    };
    *last = opened.last;
    // SAFETY: the calls get a lawful key and value.
    unsafe { spare_memory() };
    for pair in opened.store.iter().flatten() {
        let (key, value) = (&pair.key, &pair.columns[0].1);
        unsafe { recovered(key.as_ptr(), key.len(), value.as_ptr(), value.len()) };
    }
    unsafe { spare_memory() };
    *OPENED.lock().unwrap() = Some(opened);
    true
}

#[no_mangle]
extern "C" fn host_start() -> bool {
    let opened = OPENED.lock().unwrap().take();
    *HOST.write().unwrap() = opened.and_then(|opened| told(opened.start(entries)));
    HOST.read().unwrap().is_some()
}

#[no_mangle]
extern "C" fn host_put(log: u32, entry: &mut Entry) -> bool {
    let (key, value) = (text(&entry.key), text(&entry.value));
    let guard = HOST.read().unwrap();
    let host = guard.as_ref().unwrap();
    let stamp = match value {
        b"" => host.remove(log as usize, key),
        _ => host.put(log as usize, key, &[Column::new(0, value)]),
    };
    entry.version = *stamp.as_ref().unwrap_or(&0);
    stamp.is_ok()
}

#[no_mangle]
extern "C" fn host_wait(stamp: u64) -> bool {
    told(HOST.read().unwrap().as_ref().unwrap().wait(stamp)).is_some()
}

#[no_mangle]
extern "C" fn host_close() -> bool {
    HOST.write().unwrap().take().and_then(|host| told(host.close())).is_some()
}

#[no_mangle]
extern "C" fn host_shares() -> bool {
    open(1, 1000, 1000, false).is_some()
}
