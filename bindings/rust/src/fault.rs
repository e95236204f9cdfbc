//! Why there is no store, or no record.

use core::error::Error as StdError;
use core::fmt::{self, Display, Formatter};

use crate::c::{self, RawFault};

/// There is not enough memory.
#[derive(Clone, Copy, Debug, PartialEq, Eq)]
pub struct OutOfMemory;

/// The one fault that the rules give logs and parts without a store. Logs, parts and records are counted from 0.
#[derive(Clone, Copy, Debug, PartialEq, Eq)]
#[non_exhaustive]
pub enum Fault {
    /// There are no logs.
    NoLogs,
    /// A log has no whole header.
    Header {
        /// The log's number.
        log: u64,
    },
    /// This record is not lawful.
    Record {
        /// The log's number.
        log: u64,
        /// How many complete records precede it in its log.
        record: u64,
        /// What is wrong with it.
        what: What,
    },
    /// A log's device failed.
    Source {
        /// The log's number.
        log: u64,
    },
    /// A part's device failed.
    PartSource {
        /// The part's number.
        part: u64,
    },
    /// What stands before this log is missing.
    Gap {
        /// The log's number.
        log: u64,
    },
    /// A log is the same segment as an earlier one.
    Doubled {
        /// The log's number.
        log: u64,
    },
    /// A log is cut off, and a later segment of its worker is there.
    Torn {
        /// The log's number.
        log: u64,
    },
    /// A fault that this crate does not know, by the numbers of `mtr_fault`: the library is newer.
    Other {
        /// Its kind.
        kind: u32,
        /// What is wrong with a record, or 0.
        what: u32,
        /// The number of the log or part, or 0.
        index: u64,
        /// The number of the record, or 0.
        record: u64,
    },
}

/// What is wrong with a record.
#[derive(Clone, Copy, Debug, PartialEq, Eq)]
#[non_exhaustive]
pub enum What {
    /// The format does not allow its length.
    Length = 1,
    /// The number after its body is not its length.
    Trailer,
    /// The format has no kind of this byte.
    Kind,
    /// Its fields do not end with its body.
    Frame,
    /// Its version is 0.
    Version,
    /// Its key is too long.
    Key,
    /// Its columns are none, too many, too great, or do not rise.
    Columns,
    /// Its timestamp is below the one before.
    Clock,
    /// Its block is damaged.
    Checksum,
}

const WHATS: [What; 9] = [
    What::Length,
    What::Trailer,
    What::Kind,
    What::Frame,
    What::Version,
    What::Key,
    What::Columns,
    What::Clock,
    What::Checksum,
];

impl Fault {
    pub(crate) fn from_raw(raw: RawFault) -> Fault {
        let RawFault { kind, what, index, record } = raw;
        match kind {
            1 => Fault::NoLogs,
            2 => Fault::Header { log: index },
            3 if (1..=9).contains(&what) => Fault::Record { log: index, record, what: WHATS[what as usize - 1] },
            4 => Fault::Source { log: index },
            5 => Fault::PartSource { part: index },
            6 => Fault::Gap { log: index },
            9 => Fault::Doubled { log: index },
            10 => Fault::Torn { log: index },
            _ => Fault::Other { kind, what, index, record },
        }
    }

    fn to_raw(self) -> RawFault {
        let (kind, index) = match self {
            Fault::NoLogs => (1, 0),
            Fault::Header { log } => (2, log),
            Fault::Record { log, record, what } => return RawFault { kind: 3, what: what as u32, index: log, record },
            Fault::Source { log } => (4, log),
            Fault::PartSource { part } => (5, part),
            Fault::Gap { log } => (6, log),
            Fault::Doubled { log } => (9, log),
            Fault::Torn { log } => (10, log),
            Fault::Other { kind, what, index, record } => return RawFault { kind, what, index, record },
        };
        RawFault { kind, index, ..RawFault::default() }
    }
}

impl Display for Fault {
    /// Writes the words of `mtrecover`, as `log 0: record 3: kind`.
    fn fmt(&self, f: &mut Formatter<'_>) -> fmt::Result {
        let mut text = [0; 128];
        let mut count = 0;
        // SAFETY: the fault is lent for the call, and `text` has as many bytes as the call is told.
        let status = unsafe { c::mtr_fault_text(&self.to_raw(), text.as_mut_ptr(), text.len(), &mut count) };
        match core::str::from_utf8(&text[..count]) {
            Ok(words) if status == c::DONE => f.pad(words),
            _ => Err(fmt::Error),
        }
    }
}

/// Why recovery gives no store.
#[derive(Clone, Copy, Debug, PartialEq, Eq)]
#[non_exhaustive]
pub enum Error {
    /// There is not enough memory.
    OutOfMemory,
    /// The logs and parts have this fault.
    Fault(Fault),
}

/// Why a record, entry or log was not written.
#[derive(Clone, Copy, Debug, PartialEq, Eq)]
#[non_exhaustive]
pub enum WriteError {
    /// There is not enough memory.
    OutOfMemory,
    /// Version 0, no column, numbers of columns that do not rise, or what the format does not have.
    NotLawful,
    /// The bytes that were to be replaced are no log.
    NoLog,
}

const NO_MEMORY: &str = "out of memory";

impl Display for OutOfMemory {
    fn fmt(&self, f: &mut Formatter<'_>) -> fmt::Result {
        f.pad(NO_MEMORY)
    }
}

impl Display for Error {
    fn fmt(&self, f: &mut Formatter<'_>) -> fmt::Result {
        match self {
            Error::OutOfMemory => f.pad(NO_MEMORY),
            Error::Fault(fault) => fault.fmt(f),
        }
    }
}

impl Display for WriteError {
    fn fmt(&self, f: &mut Formatter<'_>) -> fmt::Result {
        f.pad(match self {
            WriteError::OutOfMemory => NO_MEMORY,
            WriteError::NotLawful => "no lawful record or entry",
            WriteError::NoLog => "no log",
        })
    }
}

impl From<OutOfMemory> for Error {
    fn from(_: OutOfMemory) -> Error {
        Error::OutOfMemory
    }
}

impl From<OutOfMemory> for WriteError {
    fn from(_: OutOfMemory) -> WriteError {
        WriteError::OutOfMemory
    }
}

impl From<Fault> for Error {
    fn from(fault: Fault) -> Error {
        Error::Fault(fault)
    }
}

impl StdError for OutOfMemory {}
impl StdError for Fault {}
impl StdError for Error {}
impl StdError for WriteError {}
