//! Reads by the crate for their speed: the value is read and let go.

use std::hint::black_box;

use thrift::protocol::{TBinaryInputProtocol, TInputProtocol};
use thrift::transport::TReadTransport;
use turmyshge::steps::ReadStep;

/// Makes the read that belongs to `step`.
pub fn take<T: TReadTransport>(
    reader: &mut TBinaryInputProtocol<T>,
    step: ReadStep,
) -> thrift::Result<()> {
    match step {
        ReadStep::MessageBegin => reader.read_message_begin().map(used),
        ReadStep::FieldBegin => reader.read_field_begin().map(used),
        ReadStep::ListBegin => reader.read_list_begin().map(used),
        ReadStep::String => reader.read_string().map(used),
        ReadStep::Uuid => reader.read_uuid().map(used),
        ReadStep::I32 => reader.read_i32().map(used),
        ReadStep::I64 => reader.read_i64().map(used),
        ReadStep::Double => reader.read_double().map(used),
        other => unreachable!("{other:?} is not timed"),
    }
}

/// Keeps the compiler from leaving a read out.
fn used<V>(value: V) {
    black_box(value);
}
