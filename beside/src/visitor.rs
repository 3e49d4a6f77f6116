//! What inputs are shown to: a judge that compares, or a keeper that notes the crate's answers down.

use turmyshge::steps::{Answer, ReadCall, WriteCall};
use turmyshge::Skip;

/// Is shown calls, one after the other.
pub trait Visitor {
    /// A read.
    fn read(&mut self, call: &ReadCall<'_>);

    /// A write into a buffer of `length` bytes.
    fn write(&mut self, call: &WriteCall<'_>, length: usize);

    /// A skip by the type's byte.
    fn skip(&mut self, bytes: &[u8], place: usize, type_byte: u8, how: &Skip);

    /// Reads by one reader, each from where the one before it ended. The last may be refused, none before it.
    fn reads(&mut self, _calls: &[ReadCall<'_>]) {}

    /// Writes by one writer into a buffer of `length` bytes, each from where the one before it ended, until one is
    /// refused.
    fn writes(&mut self, _calls: &[WriteCall<'_>], _length: usize) {}

    /// A read whose answer is written down in the rules.
    fn expect_read(&mut self, call: &ReadCall<'_>, _expected: Answer) {
        self.read(call);
    }

    /// A write whose answer and bytes are written down in the rules.
    fn expect_write(&mut self, call: &WriteCall<'_>, length: usize, _written: &[u8]) {
        self.write(call, length);
    }
}

/// What a buffer holds before a write: no two neighbours alike, so that a byte moved or left out shows.
pub fn untouched(length: usize) -> Vec<u8> {
    (0..length).map(|i| (i * 37 + 0xa5) as u8).collect()
}
