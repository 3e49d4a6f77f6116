//! Differences in words: what was asked, in hex, and both answers.

use turmyshge::steps::{Answer, ReadCall, WriteCall};

use super::Made;
use crate::hex;
use crate::port::Port;
use crate::published::Theirs;

/// A read that was answered in two ways, the second being that of `name`.
pub fn of_read(call: &ReadCall<'_>, theirs: &Theirs, name: &str, ours: &Answer) -> String {
    format!(
        "read {:?} of {} from {} (strict {}, type {:?}, depth {}, struct depth {}, {:?})\n  crate: {}\n  {name}: {ours}",
        call.step,
        hex::cut(call.bytes),
        call.place,
        call.strict,
        call.kind,
        call.depth,
        call.struct_depth,
        call.limits,
        said(theirs),
    )
}

/// A write that came out in two ways.
pub fn of_write(
    call: &WriteCall<'_>,
    length: usize,
    what: &str,
    made: &Made,
    port: &dyn Port,
    ours: &Answer,
    out: &[u8],
) -> String {
    format!(
        "write {:?} at {} of {length} (strict {}, {:?}, types {:?} and {:?}, {:?}, number {:x}, text {}, struct depth {} of {:?}): {what}\n  \
         crate: {}, {}\n  {}: {ours}, {}",
        call.step,
        call.place,
        call.strict,
        call.message,
        call.kind,
        call.other,
        call.absent,
        call.number,
        hex::cut(call.text),
        call.struct_depth,
        call.structs,
        said(&made.theirs),
        hex::cut(&made.out),
        port.name(),
        hex::cut(out),
    )
}

/// A series of writes whose answers are alike and whose bytes are not.
pub fn of_buffers(end: usize, made: &[u8], port: &dyn Port, out: &[u8]) -> String {
    format!(
        "a series of writes that ended at {end} of {}: the bytes differ\n  crate: {}\n  {}: {}",
        out.len(),
        hex::cut(made),
        port.name(),
        hex::cut(out),
    )
}

fn said(theirs: &Theirs) -> String {
    match theirs {
        Theirs::Answered(answer) => answer.to_string(),
        other => format!("{other:?}"),
    }
}
