//! What can be read.

use super::StepType;
use crate::{Limits, TType, DEFAULT_SKIP_DEPTH};

/// One step of a reader. The values it answers stand in brackets.
#[derive(Clone, Copy, Debug, PartialEq, Eq)]
#[repr(u8)]
pub enum ReadStep {
    /// An unsigned byte (the byte).
    Byte,
    /// A bool (0 or 1).
    Bool,
    /// A signed byte (bits).
    I8,
    /// A signed number of 2 bytes (bits).
    I16,
    /// A signed number of 4 bytes (bits).
    I32,
    /// A signed number of 8 bytes (bits).
    I64,
    /// A 64-bit float (its pattern, any NaN as 7ff8000000000000).
    Double,
    /// A length and a body (the body's start and end).
    Bytes,
    /// The same, the body being UTF-8 (start and end).
    String,
    /// 16 bytes (start and end).
    Uuid,
    /// A type byte (the byte).
    Type,
    /// A field header (type byte, id's bits).
    FieldBegin,
    /// A list header (element's type byte, size's bits).
    ListBegin,
    /// A set header (element's type byte, size's bits).
    SetBegin,
    /// A map header (key's type byte, value's type byte, size's bits).
    MapBegin,
    /// A struct's begin (the new struct depth).
    StructBegin,
    /// A struct's end (the new struct depth).
    StructEnd,
    /// A message type (the byte).
    MessageType,
    /// A message header (name's start and end, message type byte, sequence number's bits).
    MessageBegin,
    /// A scalar of the type asked for (its type byte, the value's bits).
    Scalar,
    /// Nothing: messages have no end bytes.
    MessageEnd,
    /// Nothing.
    FieldEnd,
    /// Nothing.
    ListEnd,
    /// Nothing.
    SetEnd,
    /// Nothing.
    MapEnd,
    /// A frame (1, payload's start and end; or 0 where no byte is left).
    Frame,
    /// A skip of one value of the type asked for (count, struct depth).
    Skip,
    /// The limits held against each other: no bytes are read.
    Limits,
}

impl ReadStep {
    /// Every step, in the order of its number.
    pub const ALL: [ReadStep; 28] = [
        ReadStep::Byte,
        ReadStep::Bool,
        ReadStep::I8,
        ReadStep::I16,
        ReadStep::I32,
        ReadStep::I64,
        ReadStep::Double,
        ReadStep::Bytes,
        ReadStep::String,
        ReadStep::Uuid,
        ReadStep::Type,
        ReadStep::FieldBegin,
        ReadStep::ListBegin,
        ReadStep::SetBegin,
        ReadStep::MapBegin,
        ReadStep::StructBegin,
        ReadStep::StructEnd,
        ReadStep::MessageType,
        ReadStep::MessageBegin,
        ReadStep::Scalar,
        ReadStep::MessageEnd,
        ReadStep::FieldEnd,
        ReadStep::ListEnd,
        ReadStep::SetEnd,
        ReadStep::MapEnd,
        ReadStep::Frame,
        ReadStep::Skip,
        ReadStep::Limits,
    ];
}

/// One read, with all that it may ask for. A step looks only at what it needs.
#[derive(Clone, Copy, Debug)]
pub struct ReadCall<'a> {
    /// The bytes to read from.
    pub bytes: &'a [u8],
    /// Where to start.
    pub place: usize,
    /// What to read.
    pub step: ReadStep,
    /// Whether a message header must have a version.
    pub strict: bool,
    /// The type to skip, or to read as a scalar.
    pub kind: StepType,
    /// How deep a skip may go, at most 127.
    pub depth: usize,
    /// How many structs are open, at most 65,535.
    pub struct_depth: usize,
    /// The limits.
    pub limits: Limits,
}

impl<'a> ReadCall<'a> {
    /// A read of `step` at `place`: strict, under the default limits and depth, with no struct open.
    pub fn new(step: ReadStep, bytes: &'a [u8], place: usize) -> ReadCall<'a> {
        ReadCall {
            bytes,
            place,
            step,
            strict: true,
            kind: StepType::Wire(TType::Stop),
            depth: DEFAULT_SKIP_DEPTH,
            struct_depth: 0,
            limits: Limits::DEFAULT,
        }
    }

    /// The same for another type.
    pub fn of(self, kind: impl Into<StepType>) -> Self {
        ReadCall {
            kind: kind.into(),
            ..self
        }
    }

    /// The same under other limits.
    pub fn under(self, limits: Limits) -> Self {
        ReadCall { limits, ..self }
    }
}
