//! Single reads and writes, asked for one at a time.
//!
//! A [`ReadCall`] or [`WriteCall`] names a step and its arguments, and an [`Answer`] is what it gives: an end and up to
//! four values, or a refusal and its place. With the feature `steps`, `read` and `write` make any such call, and the
//! named functions beside them make one each: `read_i32`, `read_field_begin`, `write_string` and so on.

mod answer;
#[cfg(feature = "steps")]
mod named_reads;
#[cfg(feature = "steps")]
mod named_writes;
mod read_call;
mod types;
mod write_call;

pub use answer::{Answer, StepRefusal};
#[cfg(feature = "steps")]
pub use named_reads::*;
#[cfg(feature = "steps")]
pub use named_writes::*;
pub use read_call::{ReadCall, ReadStep};
pub use types::{MessageType, StepType};
pub use write_call::{Absent, WriteCall, WriteStep};

pub use crate::{Limits, TType};

/// Makes the read that `call` describes.
///
/// ```
/// use turmyshge::steps::{read, ReadCall, ReadStep, TType};
/// use turmyshge::Kind;
///
/// // a skip of a list of two bytes, with room for no element
/// let call = ReadCall {
///     depth: 1,
///     ..ReadCall::new(ReadStep::Skip, &[3, 0, 0, 0, 2, 5, 6], 0).of(TType::List)
/// };
/// let answer = read(&call);
/// assert_eq!((answer.refusal, answer.place), (Some(Kind::SkipDepth), 5));
/// ```
#[cfg(feature = "steps")]
pub fn read(call: &ReadCall<'_>) -> Answer {
    Answer::from_record(crate::ffi::read(call).expect("every step and type here is known there"))
}

/// Makes the write that `call` describes into `out`, or answers none where it is of a UUID that has not 16 bytes.
///
/// ```
/// use turmyshge::steps::{write, WriteCall, WriteStep};
///
/// let mut out = [0xee; 4];
/// let call = WriteCall { number: 7, ..WriteCall::new(WriteStep::I16, 1) };
/// assert_eq!(write(&call, &mut out).unwrap().place, 3);
/// assert_eq!(out, [0xee, 0, 7, 0xee]);
///
/// // a UUID of one byte
/// let call = WriteCall { text: &[7], ..WriteCall::new(WriteStep::Uuid, 0) };
/// assert_eq!(write(&call, &mut out), None);
/// ```
#[cfg(feature = "steps")]
pub fn write(call: &WriteCall<'_>, out: &mut [u8]) -> Option<Answer> {
    crate::ffi::write(call, out).map(Answer::from_record)
}
