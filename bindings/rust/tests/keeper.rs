//! The keeper of logs: what its types let a server do. What its calls answer is proved, and `tests/library/test.c` shows it.

use mtrecover::keeper::{Buffer, Keeper, KeeperError, Log, NewLog, PartWriter, Resuming, Segment, Worker};
use mtrecover::records::{self, Column, Format};
use mtrecover::Store;

/// A keeper whose first log may be written, and the bytes of its file.
fn keeper() -> (Keeper, Log, Vec<u8>) {
    let (mut keeper, new) = Keeper::begin(7).unwrap();
    let file = new.bytes().to_vec();
    let log = keeper.created(new).unwrap();
    (keeper, log, file)
}

fn put(keeper: &mut Keeper, log: &Log, key: &str) -> u64 {
    keeper.put(log, key.as_bytes(), &[Column::new(0, b"v")]).unwrap()
}

/// Syncs all that was appended, and a mark.
fn sync(keeper: &mut Keeper, log: &Log, file: &mut Vec<u8>) {
    let mut buffer = Buffer::new();
    keeper.mark(log).unwrap();
    let taken = keeper.take(log, &mut buffer).unwrap();
    file.extend_from_slice(&taken);
    keeper.synced(taken).unwrap();
}

fn rotate(keeper: &mut Keeper, log: Log) -> NewLog {
    keeper.rotate(log).map_err(|(_, error)| error).unwrap()
}

fn segment(worker: u32, number: u32) -> Segment {
    Segment { worker, number }
}

#[test]
fn a_synced_update_may_be_acknowledged() {
    let (mut keeper, log, mut file) = keeper();
    let stamp = put(&mut keeper, &log, "a");
    assert!(keeper.acknowledged_below() <= stamp);
    sync(&mut keeper, &log, &mut file);
    assert!(keeper.acknowledged_below() > stamp);
    assert!(mtrecover::recover(&[&file], &[]).unwrap().contains_key(b"a"));
}

#[test]
fn each_log_holds_the_others_back() {
    let (mut keeper, one, mut file) = keeper();
    let new = keeper.begin_log().unwrap();
    assert_eq!(new.segment(), segment(1, 0));
    let stamp = put(&mut keeper, &one, "a");
    sync(&mut keeper, &one, &mut file);
    assert!(keeper.acknowledged_below() <= stamp);
    let other = keeper.created(new).unwrap();
    sync(&mut keeper, &other, &mut Vec::new());
    assert!(keeper.acknowledged_below() > stamp);
}

#[test]
fn updates_of_all_kinds_are_recovered() {
    let (mut keeper, log, mut file) = keeper();
    put(&mut keeper, &log, "a");
    put(&mut keeper, &log, "b");
    keeper.put(&log, b"c", &[Column::new(0, b"v"), Column::new(1, b"w")]).unwrap();
    keeper.remove(&log, b"a").unwrap();
    keeper.erase(&log, b"c", &[0]).unwrap();
    sync(&mut keeper, &log, &mut file);
    let store = mtrecover::recover(&[&file], &[]).unwrap();
    assert_eq!((store.contains_key(b"a"), store.contains_key(b"b")), (false, true));
    assert_eq!((store.get(b"c", 0), store.get(b"c", 1)), (None, Some(b"w".to_vec())));
}

#[test]
fn bytes_are_taken_again_once_they_are_synced() {
    let (mut keeper, log, mut file) = keeper();
    let mut buffer = Buffer::new();
    put(&mut keeper, &log, "a");
    let taken = keeper.take(&log, &mut buffer).unwrap();
    assert_eq!(keeper.take(&log, &mut Buffer::new()).err(), Some(KeeperError::Early));
    keeper.synced(taken).unwrap();
    sync(&mut keeper, &log, &mut file);
}

#[test]
fn a_log_that_is_not_synced_stays_as_it_is() {
    let (mut keeper, log, _) = keeper();
    put(&mut keeper, &log, "a");
    let (log, error) = keeper.rotate(log).err().unwrap();
    assert_eq!(error, KeeperError::Early);
    put(&mut keeper, &log, "b");
}

#[test]
fn what_is_old_is_deleted_after_a_checkpoint() {
    let (mut keeper, log, mut file) = keeper();
    put(&mut keeper, &log, "a");
    sync(&mut keeper, &log, &mut file);
    let next = rotate(&mut keeper, log);
    assert_eq!(next.segment(), segment(0, 1));
    let log = keeper.created(next).unwrap();
    assert!(keeper.next_to_delete().is_none());
    put(&mut keeper, &log, "b");
    let checkpoint = keeper.begin_checkpoint().unwrap();
    assert_eq!(checkpoint.number, 1);
    assert!(keeper.end_checkpoint().unwrap() >= checkpoint.begin);
    assert_eq!(keeper.stand(), Err(KeeperError::Early));
    sync(&mut keeper, &log, &mut file);
    keeper.stand().unwrap();
    let old = keeper.next_to_delete().unwrap();
    assert_eq!(old.segment(), segment(0, 0));
    keeper.deleted(old).unwrap();
    assert!(keeper.next_to_delete().is_none());
}

#[test]
fn a_checkpoint_is_given_up() {
    let (mut keeper, _log, _) = keeper();
    keeper.begin_checkpoint().unwrap();
    assert_eq!(keeper.begin_checkpoint(), Err(KeeperError::Early));
    keeper.abandon_checkpoint().unwrap();
    assert_eq!(keeper.begin_checkpoint().unwrap().number, 2);
}

/// Puts keys that begin with a letter, and syncs them with a mark. Returns the last stamp.
fn put_often(worker: &mut Worker, letter: &str, file: &mut Vec<u8>) -> u64 {
    let mut last = 0;
    for n in 0..900 {
        let stamp = worker.put(format!("{letter}{n}").as_bytes(), &[Column::new(0, b"v")]).unwrap();
        assert!(stamp > last);
        last = stamp;
    }
    worker.mark().unwrap();
    let mut buffer = Buffer::new();
    let taken = worker.take(&mut buffer).unwrap();
    file.extend_from_slice(&taken);
    worker.synced(taken).unwrap();
    last
}

#[test]
fn threads_append_at_once() {
    let (mut keeper, log, mut first) = keeper();
    let new = keeper.begin_log().unwrap();
    let mut second = new.bytes().to_vec();
    let other = keeper.created(new).unwrap();
    let mut crew = keeper.lend().map_err(|(_, error)| error).unwrap();
    let mut two = crew.hire().unwrap().unwrap();
    let mut one = crew.hire().unwrap().unwrap();
    assert!(crew.hire().unwrap().is_none());
    assert!(one.has(&log) && two.has(&other));
    let (a, b) = std::thread::scope(|threads| {
        let other = threads.spawn(|| put_often(&mut two, "b", &mut second));
        (put_often(&mut one, "a", &mut first), other.join().unwrap())
    });
    one.mark().unwrap();
    two.mark().unwrap();
    for (worker, file) in [(&mut one, &mut first), (&mut two, &mut second)] {
        let mut buffer = Buffer::new();
        let taken = worker.take(&mut buffer).unwrap();
        file.extend_from_slice(&taken);
        worker.synced(taken).unwrap();
    }
    assert_eq!(two.acknowledged_below(), a.max(b) + 1);
    crew.join(one).map_err(|(_, error)| error).unwrap();
    crew.join(two).map_err(|(_, error)| error).unwrap();
    let mut keeper = crew.close().map_err(|(_, error)| error).unwrap();
    assert_eq!(put(&mut keeper, &log, "c"), 1802);
    let store = mtrecover::recover(&[&first, &second], &[]).unwrap();
    assert!(store.contains_key(b"a899") && store.contains_key(b"b899"));
}

#[test]
fn a_crew_closes_once_its_own_logs_are_back() {
    let mut crews = [0, 1].map(|_| keeper().0.lend().map_err(|(_, error)| error).unwrap());
    let one = crews[0].hire().unwrap().unwrap();
    let other = crews[1].hire().unwrap().unwrap();
    let [mut crew, _] = crews;
    let (_, error) = crew.join(other).err().unwrap();
    assert_eq!(error, KeeperError::NotLawful);
    let (mut crew, error) = crew.close().err().unwrap();
    assert_eq!(error, KeeperError::Early);
    crew.join(one).map_err(|(_, error)| error).unwrap();
    assert!(crew.close().is_ok());
}

#[test]
fn an_unlawful_record_is_refused() {
    let (mut keeper, log, _) = keeper();
    assert_eq!(keeper.put(&log, b"a", &[]), Err(KeeperError::NotLawful));
    assert_eq!(keeper.erase(&log, b"a", &[3, 3]), Err(KeeperError::NotLawful));
}

#[test]
fn a_failed_keeper_takes_nothing() {
    let (mut keeper, log, _) = keeper();
    keeper.failed();
    assert_eq!(keeper.remove(&log, b"a"), Err(KeeperError::Failed));
    assert_eq!(keeper.begin_log().err(), Some(KeeperError::Failed));
    assert_eq!(keeper.abandon_checkpoint(), Err(KeeperError::Failed));
}

#[test]
fn a_keeper_goes_on_after_a_crash() {
    let (mut keeper, log, mut first) = keeper();
    put(&mut keeper, &log, "a");
    sync(&mut keeper, &log, &mut first);
    let second = rotate(&mut keeper, log).bytes().to_vec();

    let store = mtrecover::recover(&[&first, &second], &[]).unwrap();
    let mut resuming = Keeper::resume(&store, 0, 9).unwrap();
    let mut resumed = Vec::new();
    for log in [&first, &second] {
        resumed.clear();
        records::resume_log(&mut resumed, log, store.report().cutoff, 8, 1).unwrap();
        resuming.add(&resumed).unwrap();
    }
    let (mut keeper, logs) = resuming.finish().unwrap();
    assert_eq!(logs.len(), 1);
    let stamp = put(&mut keeper, &logs[0], "b");
    assert!(stamp >= store.report().cutoff);
    sync(&mut keeper, &logs[0], &mut resumed);
    let store = mtrecover::recover(&[&first, &resumed], &[]).unwrap();
    assert!(store.contains_key(b"a") && store.contains_key(b"b"));
}

/// Goes on from this store with these logs, and adds what replaces each.
fn resume_with(store: &Store, logs: &[&[u8]]) -> Resuming {
    let mut resuming = Keeper::resume(store, 0, 9).unwrap();
    for (log, salt) in logs.iter().zip(8..) {
        let mut resumed = Vec::new();
        records::resume_log(&mut resumed, log, store.report().cutoff, salt, 2).unwrap();
        resuming.add(&resumed).unwrap();
    }
    resuming
}

#[test]
fn a_keeper_does_not_go_on_without_a_log() {
    let (mut keeper, _log, first) = keeper();
    let second = keeper.begin_log().unwrap().bytes().to_vec();
    let store = mtrecover::recover(&[&first, &second], &[]).unwrap();
    assert_eq!(resume_with(&store, &[&first]).finish().err(), Some(KeeperError::Early));
    assert!(resume_with(&store, &[&second, &first]).finish().is_ok());
}

#[test]
fn stamps_are_above_the_version_of_a_late_update() {
    let (mut one, mut other) = (Vec::new(), Vec::new());
    records::segment_header(&mut one, 0, 0, 0).unwrap();
    records::mark(&mut one, 3).unwrap();
    records::segment_header(&mut other, 0, 1, 0).unwrap();
    records::put(&mut other, Format::Two, 20, 20, b"a", &[Column::new(0, b"v")]).unwrap();
    let store = mtrecover::recover(&[&one, &other], &[]).unwrap();
    let (mut keeper, logs) = resume_with(&store, &[&one, &other]).finish().unwrap();
    assert_eq!(put(&mut keeper, &logs[0], "a"), 21);
}

#[test]
fn the_number_of_each_known_checkpoint_is_no_greater() {
    let (_keeper, _log, log) = keeper();
    let mut part = Vec::new();
    records::part_header(&mut part, Format::Two, 5, 0, 0, 1).unwrap();
    records::part_footer(&mut part, 0, 0).unwrap();
    let store = mtrecover::recover(&[&log], &[&part]).unwrap();
    assert_eq!(store.report().checkpoint, Some(5));
    assert_eq!(Keeper::resume(&store, 4, 9).err(), Some(KeeperError::NotLawful));
    assert!(Keeper::resume(&store, 5, 9).is_ok());
}

#[test]
fn the_keys_of_a_part_rise() {
    let (mut keeper, log, mut file) = keeper();
    let stamp = put(&mut keeper, &log, "a");
    let checkpoint = keeper.begin_checkpoint().unwrap();
    let mut part = PartWriter::begin(9, &checkpoint, 0, 1).unwrap();
    part.entry(stamp, b"a", &[Column::new(0, b"v")]).unwrap();
    assert_eq!(part.entry(stamp, b"a", &[Column::new(0, b"v")]), Err(KeeperError::NotLawful));
    assert_eq!(part.entry(stamp, b"", &[Column::new(0, b"v")]), Err(KeeperError::NotLawful));
    let end = keeper.end_checkpoint().unwrap();
    assert_eq!(part.end(checkpoint.begin - 1), Err(KeeperError::NotLawful));
    part.end(end).unwrap();
    let mut buffer = Buffer::new();
    let bytes = part.take(&mut buffer).unwrap();
    sync(&mut keeper, &log, &mut file);
    let store = mtrecover::recover(&[&file], &[bytes]).unwrap();
    assert_eq!(store.report().entries, 1);

    let mut next = PartWriter::begin_above(10, &checkpoint, 1, 2, b"a").unwrap();
    assert_eq!(next.entry(stamp, b"a", &[Column::new(0, b"v")]), Err(KeeperError::NotLawful));
    next.entry(stamp, b"b", &[Column::new(0, b"v")]).unwrap();
}
