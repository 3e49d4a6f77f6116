//! Transports over lent bytes: one that remembers where its last read started, one that knows its room.

use std::fmt;
use std::io::{self, Read, Write};

/// Bytes, a place in them, and the last item asked for.
pub struct Lent<'a> {
    bytes: &'a [u8],
    /// The place of the next byte.
    pub at: usize,
    /// Where the last read started, whether it got its bytes or not.
    pub item: usize,
}

impl<'a> Lent<'a> {
    /// A transport that reads `bytes` from `at` on.
    pub fn new(bytes: &'a [u8], at: usize) -> Lent<'a> {
        Lent {
            bytes,
            at,
            item: at,
        }
    }
}

impl Read for Lent<'_> {
    fn read(&mut self, wanted: &mut [u8]) -> io::Result<usize> {
        self.item = self.at;
        let read = (&self.bytes[self.at..]).read(wanted)?;
        self.at += read;
        Ok(read)
    }

    // Whole items at once, so that a short one is seen to start where it starts.
    fn read_exact(&mut self, wanted: &mut [u8]) -> io::Result<()> {
        self.item = self.at;
        (&self.bytes[self.at..]).read_exact(wanted)?;
        self.at += wanted.len();
        Ok(())
    }
}

// The protocol prints its depth only together with its transport.
impl fmt::Debug for Lent<'_> {
    fn fmt(&self, f: &mut fmt::Formatter<'_>) -> fmt::Result {
        f.write_str("Lent")
    }
}

/// The rest of a buffer to write to.
pub struct Room<'a> {
    /// What is not yet written.
    pub rest: &'a mut [u8],
}

// As a slice writes, which leaves the bytes that fit when not all do.
impl Write for Room<'_> {
    fn write(&mut self, bytes: &[u8]) -> io::Result<usize> {
        self.rest.write(bytes)
    }

    fn write_all(&mut self, bytes: &[u8]) -> io::Result<()> {
        self.rest.write_all(bytes)
    }

    fn flush(&mut self) -> io::Result<()> {
        self.rest.flush()
    }
}

// A slice would print all its bytes.
impl fmt::Debug for Room<'_> {
    fn fmt(&self, f: &mut fmt::Formatter<'_>) -> fmt::Result {
        f.write_str("Room")
    }
}
