//! Stands in for `varint-rs`, which Debian has no package of.
//!
//! The crate's compact protocol, which is not compared here, writes its numbers through this trait. Only what it calls
//! is here: seven bits to a byte, low bits first, signed numbers in zigzag.

use std::io;

/// Writes numbers seven bits to a byte.
pub trait VarintWriter: io::Write {
    /// An unsigned number of 32 bits.
    fn write_u32_varint(&mut self, number: u32) -> io::Result<()> {
        self.write_sevens(u64::from(number))
    }

    /// A signed number of 16 bits.
    fn write_i16_varint(&mut self, number: i16) -> io::Result<()> {
        self.write_i64_varint(i64::from(number))
    }

    /// A signed number of 32 bits.
    fn write_i32_varint(&mut self, number: i32) -> io::Result<()> {
        self.write_i64_varint(i64::from(number))
    }

    /// A signed number of 64 bits.
    fn write_i64_varint(&mut self, number: i64) -> io::Result<()> {
        self.write_sevens((number << 1 ^ number >> 63) as u64)
    }

    /// Seven bits to a byte, low bits first.
    fn write_sevens(&mut self, mut number: u64) -> io::Result<()> {
        while number >= 0x80 {
            self.write_all(&[number as u8 | 0x80])?;
            number >>= 7;
        }
        self.write_all(&[number as u8])
    }
}

impl<W: io::Write + ?Sized> VarintWriter for W {}
