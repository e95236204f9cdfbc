//! Recovery of a store after a crash, and the logs and checkpoints of a running server.
//!
//! A server writes its updates to *logs*. From time to time it writes a *checkpoint*, which has all keys of the store with
//! their columns. The files of a checkpoint are its *parts*. After a crash, recovery makes the [`Store`] from the bytes of the
//! logs and parts, or it names the one [`Fault`] why there is no store.
//!
//! This crate gives safe types to the functions of `include/mtrecover.h`. For these C functions it is proved what they answer
//! and write, if the caller keeps their duties. The types of this crate keep the duties. That they do so is tested, not
//! proved.
//!
//! - A server that lets this crate read and write its files uses a [`host`], which owns the files and the threads that write
//!   them.
//! - A program that has the bytes of all logs and parts in memory calls [`recover`].
//! - A program that reads the files itself feeds them in chunks. A [`Feed`] takes the bytes of one log or part, and [`Inputs`]
//!   collect the feeds. [`Inputs::recover`] makes the [`Store`]. [`Inputs::recover_by`] does so on threads of the caller.
//! - A server that writes its files itself has a [`Keeper`]. It says which bytes to write, which updates may be acknowledged,
//!   and which files may be deleted.
//! - The functions of [`records`] write single records, entries, headers and blocks.
//!
//! ```
//! use mtrecover::records::{self, Column, Format};
//!
//! let mut log = Vec::new();
//! records::log_header(&mut log, Format::One, 0)?;
//! records::put(&mut log, Format::One, 3, 1, b"fig", &[Column::new(0, b"green"), Column::new(1, b"ripe")])?;
//! records::mark(&mut log, 5)?;
//!
//! let store = mtrecover::recover(&[&log], &[])?;
//! assert_eq!(store.get(b"fig", 1), Some(b"ripe".to_vec()));
//! assert_eq!(store.report().cutoff, 5);
//! for pair in store.range(&b"a"[..]..&b"m"[..]) {
//!     assert_eq!(pair.columns.len(), 2);
//! }
//! # Ok::<(), Box<dyn std::error::Error>>(())
//! ```
//!
//! If memory runs out, a call for which the library itself allocates returns an error. The `Vec`s that calls return, and
//! [`Clone`], take memory as Rust's own types do. Outside [`host`], no call starts a thread, waits, prints, or keeps state of
//! its own.

#![no_std]
#![warn(missing_debug_implementations)]
#![deny(missing_docs, clippy::undocumented_unsafe_blocks)]

extern crate alloc;

mod c;
mod fault;
#[cfg(feature = "host")]
pub mod host;
mod inputs;
#[cfg(feature = "host")]
mod io;
pub mod keeper;
mod pairs;
pub mod records;
mod store;

pub use fault::{Error, Fault, OutOfMemory, What, WriteError};
pub use inputs::{recover, Feed, Inputs, Task};
pub use keeper::{Buffer, Keeper, KeeperError};
pub use pairs::{Columns, Pair, PairRef, Walk};
pub use store::{Report, Store};

/// The version of the library that the program is linked with, and the formats that this library knows.
#[derive(Clone, Copy, Debug, PartialEq, Eq)]
#[non_exhaustive]
pub struct Version {
    /// The version of the library: its `MTR_VERSION_MAJOR`.
    pub library: u32,
    /// The greatest format of logs that the library knows.
    pub log_format: u32,
    /// The greatest format of parts that the library knows.
    pub part_format: u32,
}

/// Returns the version of the library that the program is linked with, and the formats that it knows.
pub fn version() -> Version {
    let mut raw = c::RawVersions::default();
    // SAFETY: the call writes to `raw` alone.
    unsafe { c::mtr_version(&mut raw) };
    Version { library: raw.library, log_format: raw.log_format, part_format: raw.part_format }
}
