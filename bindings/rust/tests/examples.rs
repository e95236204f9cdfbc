//! Each function of the crate, over examples/ of the repository, which an installed package has inside. README.md and
//! docs/WALKTHROUGH.md show their store.

use mtrecover::records::{self, Column, Format};
use mtrecover::{Error, Fault, Feed, Inputs, Pair, Store, What, WriteError};
use std::fs;
use std::io;
use std::ops::{Bound, RangeBounds};
use std::path::Path;
use std::thread;

fn example(name: &str) -> Vec<u8> {
    let package = Path::new(env!("CARGO_MANIFEST_DIR"));
    let ways = ["examples", "../../examples"].map(|folder| package.join(folder).join(name));
    fs::read(ways.iter().find(|way| way.exists()).unwrap()).unwrap()
}

fn fed(mut feed: Feed, bytes: &[u8]) -> Feed {
    for chunk in bytes.chunks(7) {
        feed.feed(chunk).unwrap();
    }
    feed
}

/// The logs and parts of examples/store.
fn inputs() -> Inputs {
    let mut inputs = Inputs::new();
    for log in ["worker-0.mtl", "worker-1.mtl"] {
        inputs.add(fed(Feed::log().unwrap(), &example(&format!("store/{log}")))).unwrap();
    }
    for part in ["7-0.mtc", "7-1.mtc", "8-0.mtc", "9-0.mtc"] {
        inputs.add(fed(Feed::part().unwrap(), &example(&format!("store/{part}")))).unwrap();
    }
    inputs
}

/// The store of examples/store.
fn store() -> Store {
    inputs().recover().unwrap()
}

fn keys<'a>(store: &Store, range: impl RangeBounds<&'a [u8]>) -> Vec<String> {
    store.range(range).map(|pair| String::from_utf8(pair.key).unwrap()).collect()
}

fn fault(logs: &[&[u8]]) -> Fault {
    match mtrecover::recover(logs, &[]) {
        Err(Error::Fault(fault)) => fault,
        other => panic!("{other:?}"),
    }
}

#[test]
fn threads_recover_the_same_store() {
    for threads in [0, 1, 3, 100] {
        let recovered = inputs()
            .recover_by(threads, |tasks| {
                thread::scope(|scope| {
                    for task in tasks {
                        scope.spawn(|| task.work());
                    }
                })
            })
            .unwrap();
        assert_eq!(recovered.report(), store().report());
        assert_eq!(keys(&recovered, ..), keys(&store(), ..));
    }
}

#[test]
fn tasks_that_are_left_are_done() {
    let recovered = inputs().recover_by(2, |_| ()).unwrap();
    assert_eq!(recovered.get(b"fig", 1), Some(b"ripe".to_vec()));
}

#[test]
fn threads_name_the_same_fault() {
    match Inputs::new().recover_by(2, |_| ()) {
        Err(Error::Fault(Fault::NoLogs)) => {}
        other => panic!("{other:?}"),
    }
}

#[test]
fn values_are_found() {
    let store = store();
    assert_eq!(store.get(b"fig", 0), Some(b"green".to_vec()));
    assert_eq!(store.get(b"fig", 1), Some(b"ripe".to_vec()));
}

#[test]
fn absent_keys_and_columns_are_not() {
    let store = store();
    assert_eq!(store.get(b"fig", 2), None);
    assert_eq!(store.get(b"plum", 0), None);
    assert!(store.contains_key(b"fig"));
    assert!(!store.contains_key(b"plum"));
}

#[test]
fn pairs_come_in_order() {
    assert_eq!(keys(&store(), ..), ["fig", "kiwi", "lime", "pear"]);
}

#[test]
fn a_range_keeps_its_bounds() {
    let (store, kiwi, pear) = (store(), &b"kiwi"[..], &b"pear"[..]);
    assert_eq!(keys(&store, kiwi..pear), ["kiwi", "lime"]);
    assert_eq!(keys(&store, kiwi..=pear), ["kiwi", "lime", "pear"]);
    assert_eq!(keys(&store, pear..), ["pear"]);
    assert_eq!(keys(&store, ..kiwi), ["fig"]);
    assert!(keys(&store, &b"q"[..]..).is_empty());
}

#[test]
fn a_pair_has_its_columns() {
    let fig = store().range(..).next().unwrap();
    let columns = vec![(0, b"green".to_vec()), (1, b"ripe".to_vec())];
    assert_eq!(fig, Pair { key: b"fig".to_vec(), columns });
}

#[test]
fn a_pair_is_found_by_its_key() {
    let store = store();
    assert_eq!(store.pair(b"fig"), store.range(..).next());
    assert_eq!(store.pair(b"plum"), None);
}

#[test]
fn a_store_is_iterated() {
    let mut found = Vec::new();
    for pair in &store() {
        found.push(pair);
    }
    assert_eq!(found.len(), 4);
    assert!(store().range(..).eq(found));
}

#[test]
fn pairs_are_lent() {
    let store = store();
    let (mut lent, mut owned) = (store.range(..), store.range(..));
    while let Some(pair) = lent.next_ref() {
        assert_eq!(pair.columns.len(), pair.to_pair().columns.len());
        assert_eq!(Some(pair.to_pair()), owned.next());
    }
    assert_eq!(owned.next(), None);
    let mut figs = store.range(..);
    let fig = figs.next_ref().unwrap();
    assert_eq!((fig.key, fig.get(1), fig.get(2)), (&b"fig"[..], Some(&b"ripe"[..]), None));
}

#[test]
fn threads_walk_ranges() {
    let store = store();
    let walks = [store.range(..&b"kiwi"[..]), store.range(&b"kiwi"[..]..&b"m"[..]), store.range(&b"m"[..]..)];
    let counts =
        thread::scope(|scope| walks.map(|walk| scope.spawn(|| walk.count())).map(|thread| thread.join().unwrap()));
    assert_eq!(counts, [1, 2, 1]);
}

#[test]
fn ranges_have_all_pairs_evenly() {
    let store = store();
    for (n, counts) in [(1, &[4][..]), (3, &[2, 1, 1]), (4, &[1, 1, 1, 1]), (6, &[1, 1, 1, 1, 0, 0])] {
        let ranges: Vec<Vec<Pair>> = store.par_ranges(n).into_iter().map(Iterator::collect).collect();
        assert_eq!(ranges.iter().map(Vec::len).collect::<Vec<_>>(), counts);
        assert!(ranges.concat().into_iter().eq(&store));
    }
    assert!(store.par_ranges(0).is_empty());
}

#[test]
fn excluded_bounds_are_left_out() {
    let (store, kiwi) = (store(), &b"kiwi"[..]);
    assert!(keys(&store, ..&b""[..]).is_empty());
    assert!(keys(&store, kiwi..kiwi).is_empty());
    assert_eq!(keys(&store, (Bound::Excluded(kiwi), Bound::Unbounded)), ["lime", "pear"]);
    assert_eq!(keys(&store, (Bound::Excluded(kiwi), Bound::Included(&b"lime"[..]))), ["lime"]);
}

#[test]
fn a_feed_takes_readers_and_writers() {
    let bytes = example("a.mtl");
    let (mut read, mut written) = (Feed::log().unwrap(), Feed::log().unwrap());
    assert!(read.read_all(&bytes[..]).unwrap());
    assert_eq!(io::copy(&mut &bytes[..], &mut written).unwrap(), bytes.len() as u64);
    for feed in [read, written] {
        let mut inputs = Inputs::new();
        inputs.add(feed).unwrap();
        assert!(inputs.recover().unwrap().range(..).eq(mtrecover::recover(&[&bytes], &[]).unwrap().range(..)));
    }
}

#[test]
fn a_reader_is_read_as_far_as_it_matters() {
    let mut feed = Feed::log().unwrap();
    assert!(!feed.read_all(io::repeat(b'x')).unwrap());
    let folder = fs::File::open(env!("CARGO_MANIFEST_DIR")).unwrap();
    assert!(Feed::log().unwrap().read_all(folder).is_err());
}

#[test]
fn the_report_is_that_of_the_program() {
    let report = store().report();
    assert_eq!((report.cutoff, report.checkpoint, report.begin), (40, Some(7), 10));
    assert_eq!((report.writers, report.records, report.marks, report.torn, report.holes), (2, 9, 2, 1, 0));
    assert_eq!((report.entries, report.survivors, report.early, report.late), (4, 9, 1, 1));
    assert_eq!((report.keys, report.layers), (4, 1));
    assert_eq!((report.skipped, report.nameless), (vec![8], vec![3]));
    assert_eq!(report.ends.len(), 2);
}

#[test]
fn many_pairs_are_walked_in_order() {
    let mut log = Vec::new();
    records::log_header(&mut log, Format::One, 0).unwrap();
    for n in 1..=1000_u64 {
        records::put(&mut log, Format::One, n, n, format!("{n:04}").as_bytes(), &[Column::new(0, b"")]).unwrap();
    }
    records::mark(&mut log, 1001).unwrap();
    let store = mtrecover::recover(&[&log], &[]).unwrap();
    assert!(keys(&store, ..).into_iter().eq((1..=1000).map(|n| format!("{n:04}"))));
}

#[test]
fn pairs_longer_than_the_buffer_are_walked() {
    let value = vec![7; 40_000];
    let mut log = Vec::new();
    records::log_header(&mut log, Format::One, 0).unwrap();
    for n in 1..=20_u64 {
        let columns = [Column::new(0, &value), Column::new(1, &value[..2000 * n as usize])];
        records::put(&mut log, Format::One, n, n, &[n as u8], &columns).unwrap();
    }
    records::mark(&mut log, 21).unwrap();
    let store = mtrecover::recover(&[&log], &[]).unwrap();
    assert_eq!(store.range(..).count(), 20);
    assert!(store.into_iter().all(|pair| pair.columns[0].1 == value));
}

#[test]
fn threads_read_clones() {
    let store = store();
    thread::scope(|threads| {
        for _ in 0..4 {
            let store = store.clone();
            threads.spawn(move || {
                for _ in 0..100 {
                    assert_eq!(keys(&store, ..), ["fig", "kiwi", "lime", "pear"]);
                    assert_eq!(store.get(b"lime", 0), Some(b"sour".to_vec()));
                }
            });
        }
    });
    assert_eq!(store.get(b"lime", 0), Some(b"sour".to_vec()));
}

#[test]
fn faults_have_the_words_of_the_program() {
    let (a, gap) = (example("a.mtl"), example("gap.mtl"));
    let mut wrong = a.clone();
    wrong[16] = 99;
    assert_eq!(fault(&[]).to_string(), "no logs");
    assert_eq!(fault(&[&a, b"x"]), Fault::Header { log: 1 });
    assert_eq!(fault(&[&a, &gap]).to_string(), "log 1: gap");
    assert_eq!(fault(&[&wrong]), Fault::Record { log: 0, record: 0, what: What::Kind });
    assert_eq!(fault(&[&wrong]).to_string(), "log 0: record 0: kind");
}

#[test]
fn a_feed_says_that_no_more_matters() {
    let mut log = Feed::log().unwrap();
    assert_eq!(log.feed(b"MTL"), Ok(true));
    assert_eq!(log.feed(b"9"), Ok(false));
}

#[test]
fn a_device_that_failed_is_a_fault() {
    let mut inputs = Inputs::new();
    let mut log = fed(Feed::log().unwrap(), &example("a.mtl"));
    log.fail();
    inputs.add(log).unwrap();
    assert_eq!(inputs.recover().err(), Some(Error::Fault(Fault::Source { log: 0 })));
}

#[test]
fn a_torn_log_is_resumed() {
    let log = example("store/worker-1.mtl");
    let mut resumed = Vec::new();
    let told = records::resume_log(&mut resumed, &log, 40, 7, 2).unwrap();
    assert_eq!((told.dropped, told.format, told.changed, told.ended), (1, Format::Two, true, false));
    assert_eq!(mtrecover::recover(&[&resumed], &[]).unwrap().report().cutoff, 40);
    assert_eq!(records::resume_log(&mut resumed, b"x", 40, 7, 2), Err(WriteError::NoLog));
    let ending = records::log_ending(&log).unwrap();
    assert_eq!((ending.from, ending.last, ending.torn, ending.goes_on), (0, 42, true, false));
    assert_eq!(records::log_ending(b"x"), Err(WriteError::NoLog));
}

#[test]
fn an_unlawful_record_is_not_written() {
    let mut log = Vec::new();
    assert_eq!(records::put(&mut log, Format::One, 1, 0, b"k", &[Column::new(0, b"v")]), Err(WriteError::NotLawful));
    assert_eq!(records::put(&mut log, Format::One, 1, 1, b"k", &[]), Err(WriteError::NotLawful));
    assert_eq!(records::erase(&mut log, Format::Two, 1, 1, b"k", &[3, 3]), Err(WriteError::NotLawful));
    assert!(log.is_empty());
}

#[test]
fn what_only_format_2_has_is_not_written_in_format_1() {
    let mut out = Vec::new();
    let column = [Column::new(16, b"v")];
    assert_eq!(records::put(&mut out, Format::One, 1, 1, b"k", &column), Err(WriteError::NotLawful));
    assert_eq!(records::remove(&mut out, Format::One, 1, 1, &[0; 1025]), Err(WriteError::NotLawful));
    assert_eq!(records::erase(&mut out, Format::One, 1, 1, b"k", &[3]), Err(WriteError::NotLawful));
    assert_eq!(records::entry(&mut out, Format::One, 1, b"k", &column), Err(WriteError::NotLawful));
    assert!(out.is_empty());
    assert_eq!(records::put(&mut out, Format::Two, 1, 1, b"k", &column), Ok(()));
    assert_eq!(records::remove(&mut out, Format::Two, 1, 1, &[0; 1025]), Ok(()));
    assert_eq!(records::erase(&mut out, Format::Two, 1, 1, b"k", &[3]), Ok(()));
    assert_eq!(records::entry(&mut out, Format::Two, 1, b"k", &column), Ok(()));
}

#[test]
fn an_ended_log_says_so() {
    let (mut log, mut resumed) = (Vec::new(), Vec::new());
    records::segment_header(&mut log, 0, 2, 1).unwrap();
    records::mark(&mut log, u64::MAX).unwrap();
    let told = records::resume_log(&mut resumed, &log, 40, 7, 2).unwrap();
    assert_eq!((told.dropped, told.format, told.changed, told.ended), (0, Format::Two, true, true));
}

/// A log of format 4 with these bytes in one block.
fn sealed(segment: u32, body: &[u8]) -> Vec<u8> {
    let mut log = Vec::new();
    let mark = records::log_header_4(&mut log, 7, 0, segment, 1, 0).unwrap();
    records::seal(&mut log, mark, body).unwrap();
    log
}

#[test]
fn a_log_has_records_in_blocks() {
    let mut body = Vec::new();
    records::put(&mut body, Format::Two, 1, 1, b"k", &[Column::new(0, b"v")]).unwrap();
    records::mark(&mut body, 2).unwrap();
    let mut log = sealed(0, &body);
    assert_eq!(log.len(), 44 + 16 + body.len());
    assert_eq!(mtrecover::recover(&[&log], &[]).unwrap().get(b"k", 0), Some(b"v".to_vec()));
    log[60] ^= 1;
    log.extend_from_slice(&sealed(0, &body)[44..]);
    assert_eq!(fault(&[&log]), Fault::Record { log: 0, record: 0, what: What::Checksum });
}

#[test]
fn a_log_in_blocks_is_resumed_with_another_salt() {
    let (mut body, mut resumed) = (Vec::new(), Vec::new());
    records::mark(&mut body, 2).unwrap();
    let told = records::resume_log(&mut resumed, &sealed(3, &body), 2, 8, 1).unwrap();
    assert_eq!((told.dropped, told.format, told.changed, told.ended), (0, Format::Two, true, false));
    assert_eq!((&resumed[..4], resumed[11], resumed.len()), (&b"MTL4"[..], 8, 77));
}

#[test]
fn a_resumed_log_says_how_many_workers_are_left() {
    let mut log = Vec::new();
    records::log_header_4(&mut log, 7, 0, 0, 3, 0).unwrap();
    assert_eq!(records::workers_said(&log), 3);
    for workers in 2..5 {
        let mut resumed = Vec::new();
        records::resume_log(&mut resumed, &log, 2, 8, workers).unwrap();
        assert_eq!(records::workers_said(&resumed), workers);
    }
    assert_eq!(records::workers_said(&log[..43]), 0);
    assert_eq!(records::workers_said(&example("a.mtl")), 0);
}

#[test]
fn a_part_has_entries_in_blocks() {
    let (mut part, mut entry, mut footer) = (Vec::new(), Vec::new(), Vec::new());
    let mark = records::part_header_4(&mut part, 7, 1, 0, 0, 1).unwrap();
    records::entry(&mut entry, Format::Two, 1, b"k", &[Column::new(0, b"v")]).unwrap();
    records::part_footer(&mut footer, 1, 1).unwrap();
    records::seal(&mut part, mark, &entry).unwrap();
    records::seal(&mut part, mark, &footer).unwrap();
    let mut body = Vec::new();
    records::mark(&mut body, 2).unwrap();
    let store = mtrecover::recover(&[&sealed(0, &body)], &[&part]).unwrap();
    assert_eq!((store.report().checkpoint, store.get(b"k", 0)), (Some(1), Some(b"v".to_vec())));
}

#[test]
fn a_long_body_is_not_sealed() {
    let mut out = Vec::new();
    let mark = records::log_header_4(&mut Vec::new(), 7, 0, 0, 1, 0).unwrap();
    assert_eq!(records::seal(&mut out, mark, &vec![0; (1 << 23) + 1]), Err(WriteError::NotLawful));
    assert!(out.is_empty());
    assert_eq!(records::seal(&mut out, mark, &vec![0; 1 << 23]), Ok(()));
    assert_eq!(out.len(), (1 << 23) + 16);
}

#[test]
fn the_library_tells_its_version() {
    let version = mtrecover::version();
    assert_eq!((version.library, version.log_format, version.part_format), (3, 4, 4));
}
