//! Feeds over std's readers and writers.

extern crate std;

use std::io::{self, ErrorKind, Read, Write};

use crate::{Feed, OutOfMemory};

/// How many bytes are read at a time.
const CHUNK: usize = 1 << 16;

impl Feed {
    /// Feeds all that the reader has, or as much as matters, and returns as [`feed`](Feed::feed) does. After an error of the
    /// reader [`fail`](Feed::fail) makes recovery say so.
    pub fn read_all(&mut self, mut reader: impl Read) -> io::Result<bool> {
        let mut chunk = std::vec![0; CHUNK];
        loop {
            match reader.read(&mut chunk) {
                Ok(0) => return Ok(true),
                Ok(length) if self.feed(&chunk[..length])? => {}
                Ok(_) => return Ok(false),
                Err(error) if error.kind() == ErrorKind::Interrupted => {}
                Err(error) => return Err(error),
            }
        }
    }
}

/// Feeds what is written. Bytes that do not matter any more are taken too.
impl Write for Feed {
    fn write(&mut self, bytes: &[u8]) -> io::Result<usize> {
        self.feed(bytes)?;
        Ok(bytes.len())
    }

    fn flush(&mut self) -> io::Result<()> {
        Ok(())
    }
}

impl From<OutOfMemory> for io::Error {
    fn from(error: OutOfMemory) -> io::Error {
        io::Error::new(ErrorKind::OutOfMemory, error)
    }
}
