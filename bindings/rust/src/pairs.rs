//! Pairs in their flat form, which `docs/FORMATS.md` shows: each is the entry of a part.

use alloc::vec::Vec;
use core::ops::{Bound, RangeBounds};

use crate::c;
use crate::records::append;
use crate::Store;

/// How many bytes of pairs are copied out of the tree at a time.
const ROOM: usize = 1 << 16;

/// The bytes before a key and its length: the length of the fields, and the version.
const BEFORE_KEY: usize = 12;

/// The bytes after the columns: the length once more.
const TRAILER: usize = 4;

/// A key with its columns, by rising numbers.
#[derive(Clone, Debug, PartialEq, Eq)]
pub struct Pair {
    /// The key.
    pub key: Vec<u8>,
    /// The number and the value of each column: at least one.
    pub columns: Vec<(u8, Vec<u8>)>,
}

/// A key with its columns, lent by a [`Walk`].
#[derive(Clone, Copy, Debug, PartialEq, Eq)]
pub struct PairRef<'w> {
    /// The key.
    pub key: &'w [u8],
    /// The columns, by rising numbers: at least one.
    pub columns: Columns<'w>,
}

impl<'w> PairRef<'w> {
    /// Returns the value of the column of this number, if it is there.
    pub fn get(&self, number: u8) -> Option<&'w [u8]> {
        self.columns.into_iter().find(|column| column.0 == number).map(|column| column.1)
    }

    /// Copies the pair.
    pub fn to_pair(&self) -> Pair {
        let columns = self.columns.into_iter().map(|(number, value)| (number, value.to_vec()));
        Pair { key: self.key.to_vec(), columns: columns.collect() }
    }
}

/// The numbers and values of a pair's columns, which an iterator returns in order.
#[derive(Clone, Copy, Debug, PartialEq, Eq)]
pub struct Columns<'w> {
    left: u8,
    bytes: &'w [u8],
}

impl<'w> Iterator for Columns<'w> {
    type Item = (u8, &'w [u8]);

    fn next(&mut self) -> Option<(u8, &'w [u8])> {
        self.left = self.left.checked_sub(1)?;
        let number = self.bytes[0];
        let (value, rest) = counted(&self.bytes[1..]);
        self.bytes = rest;
        Some((number, value))
    }

    fn size_hint(&self) -> (usize, Option<usize>) {
        (self.left.into(), Some(self.left.into()))
    }
}

impl ExactSizeIterator for Columns<'_> {}

impl Store {
    /// Returns the pair of this key, if it is there.
    pub fn pair(&self, key: &[u8]) -> Option<Pair> {
        let mut bytes = Vec::new();
        // SAFETY: the key is lent for the call, and the place holds a store.
        let status = append(&mut bytes, |out, room, count| unsafe {
            c::mtr_pair(self.0.raw(), key.as_ptr(), key.len(), out, room, count)
        });
        (status == c::DONE).then(|| read(&bytes).0.to_pair())
    }

    /// Returns the pairs whose keys lie in the range, in order. Keys are compared byte by byte. Ranges can go to threads of
    /// their own:
    ///
    /// ```
    /// # let mut log = Vec::new();
    /// # mtrecover::records::log_header(&mut log, mtrecover::records::Format::Two, 0)?;
    /// # mtrecover::records::mark(&mut log, 5)?;
    /// # let store = mtrecover::recover(&[&log], &[])?;
    /// let ranges = [store.range(..&b"m"[..]), store.range(&b"m"[..]..)];
    /// let counts = std::thread::scope(|scope| {
    ///     let threads = ranges.map(|walk| scope.spawn(|| walk.count()));
    ///     threads.map(|thread| thread.join().unwrap())
    /// });
    /// # assert_eq!(counts, [0, 0]);
    /// # Ok::<(), Box<dyn std::error::Error>>(())
    /// ```
    pub fn range<'a>(&self, keys: impl RangeBounds<&'a [u8]>) -> Walk {
        let start = match keys.start_bound() {
            Bound::Included(key) => key.to_vec(),
            Bound::Excluded(key) => after(key),
            Bound::Unbounded => Vec::new(),
        };
        let end = match keys.end_bound() {
            Bound::Included(key) => Some(after(key)),
            Bound::Excluded(key) => Some(key.to_vec()),
            Bound::Unbounded => None,
        };
        self.walk(start, end)
    }

    /// Returns `n` ranges that have all pairs, one after the other: each equally many, or one more. Each can go to a thread
    /// of its own; rayon's `into_par_iter()` takes them.
    ///
    /// ```
    /// # let mut log = Vec::new();
    /// # mtrecover::records::log_header(&mut log, mtrecover::records::Format::Two, 0)?;
    /// # mtrecover::records::mark(&mut log, 5)?;
    /// # let store = mtrecover::recover(&[&log], &[])?;
    /// let count: usize = std::thread::scope(|scope| {
    ///     let threads: Vec<_> = store.par_ranges(4).into_iter().map(|walk| scope.spawn(|| walk.count())).collect();
    ///     threads.into_iter().map(|thread| thread.join().unwrap()).sum()
    /// });
    /// # assert_eq!(count, 0);
    /// # Ok::<(), Box<dyn std::error::Error>>(())
    /// ```
    pub fn par_ranges(&self, n: usize) -> Vec<Walk> {
        let cuts: Vec<_> = (0..n).map(|i| self.cut_key(i, n)).collect();
        (0..n).map(|i| self.walk(cuts[i].clone(), cuts.get(i + 1).cloned())).collect()
    }

    /// Returns the key at which range i of n ranges begins.
    fn cut_key(&self, i: usize, n: usize) -> Vec<u8> {
        let mut key = Vec::new();
        // SAFETY: the place holds a store.
        append(&mut key, |out, room, count| unsafe { c::mtr_cut_key(self.0.raw(), i, n, out, room, count) });
        key
    }

    /// Returns the pairs from a key on, below another one if there is one.
    fn walk(&self, start: Vec<u8>, end: Option<Vec<u8>>) -> Walk {
        Walk { store: self.clone(), start, end, bytes: Vec::new(), at: 0 }
    }
}

/// Returns the least key above this one.
fn after(key: &[u8]) -> Vec<u8> {
    [key, &[0]].concat()
}

impl IntoIterator for &Store {
    type Item = Pair;
    type IntoIter = Walk;

    /// Returns all pairs, in order.
    fn into_iter(self) -> Walk {
        self.range(..)
    }
}

/// The pairs of a range of keys. They come out of the tree many at a time, into one buffer. As an iterator it copies each;
/// [`next_ref`](Walk::next_ref) lends them.
///
/// ```
/// # let mut log = Vec::new();
/// # mtrecover::records::log_header(&mut log, mtrecover::records::Format::Two, 0)?;
/// # mtrecover::records::mark(&mut log, 5)?;
/// # let store = mtrecover::recover(&[&log], &[])?;
/// let mut bytes = 0;
/// let mut pairs = store.into_iter();
/// while let Some(pair) = pairs.next_ref() {
///     bytes += pair.columns.map(|(_, value)| value.len()).sum::<usize>();
/// }
/// # assert_eq!(bytes, 0);
/// # Ok::<(), Box<dyn std::error::Error>>(())
/// ```
#[derive(Debug)]
pub struct Walk {
    /// The store's place for this walk, so that a thread can have it.
    store: Store,
    /// Where the pairs behind those in the buffer start, and the key below which all are, if there is one.
    start: Vec<u8>,
    end: Option<Vec<u8>>,
    /// Pairs, and how many bytes of them were returned.
    bytes: Vec<u8>,
    at: usize,
}

impl Walk {
    /// Returns the next pair, lent until the walk goes on.
    pub fn next_ref(&mut self) -> Option<PairRef<'_>> {
        if self.at == self.bytes.len() && !self.advance() {
            return None;
        }
        let (pair, length) = read(&self.bytes[self.at..]);
        self.at += length;
        if self.at == self.bytes.len() {
            self.start.clear();
            self.start.extend_from_slice(pair.key);
            self.start.push(0);
        }
        Some(pair)
    }

    /// Takes the next pairs from the tree. Returns whether there are some.
    fn advance(&mut self) -> bool {
        let (mut pairs, start) = (0, &self.start);
        self.at = 0;
        self.bytes.clear();
        let end = match &self.end {
            Some(end) if end.is_empty() => return false, // no bytes would be no end
            Some(end) => &end[..],
            None => &[],
        };
        self.bytes.reserve(ROOM);
        // SAFETY: both keys are lent for the call, and the place holds a store.
        let status = append(&mut self.bytes, |out, room, count| unsafe {
            let store = self.store.0.raw();
            c::mtr_dump_until(store, start.as_ptr(), start.len(), end.as_ptr(), end.len(), out, room, count, &mut pairs)
        });
        status == c::DONE
    }
}

impl Iterator for Walk {
    type Item = Pair;

    fn next(&mut self) -> Option<Pair> {
        self.next_ref().map(|pair| pair.to_pair())
    }
}

/// Reads the pair that the bytes begin with. Returns it and its length.
fn read(bytes: &[u8]) -> (PairRef<'_>, usize) {
    let (key, after) = counted(&bytes[BEFORE_KEY..]);
    let columns = Columns { left: after[0], bytes: &after[1..] };
    let length = u32::from_be_bytes([bytes[0], bytes[1], bytes[2], bytes[3]]) as usize;
    (PairRef { key, columns }, TRAILER + length + TRAILER)
}

/// Returns the bytes whose two-byte length the slice begins with, and what comes after them.
fn counted(bytes: &[u8]) -> (&[u8], &[u8]) {
    bytes[2..].split_at(u16::from_be_bytes([bytes[0], bytes[1]]).into())
}
