//! What can be written.

use super::{MessageType, StepType};
use crate::TType;

/// One step of a writer. What it is told stands in brackets.
#[derive(Clone, Copy, Debug, PartialEq, Eq)]
#[repr(u8)]
pub enum WriteStep {
    /// A message header (`strict`, `text` the name, `message`, `number` the sequence number).
    MessageBegin,
    /// Nothing: messages have no end bytes.
    MessageEnd,
    /// A struct's begin (`struct_depth`, `structs`). Answers the new struct depth.
    StructBegin,
    /// A struct's end (`struct_depth`). Answers the new struct depth.
    StructEnd,
    /// A field header (`kind`, `number` the id, or `absent`).
    FieldBegin,
    /// Nothing.
    FieldEnd,
    /// The byte that ends a struct's fields.
    FieldStop,
    /// An unsigned byte (`number`).
    Byte,
    /// A bool (`number`, 0 for false).
    Bool,
    /// A signed byte (`number`).
    I8,
    /// A signed number of 2 bytes (`number`).
    I16,
    /// A signed number of 4 bytes (`number`).
    I32,
    /// A signed number of 8 bytes (`number`).
    I64,
    /// A 64-bit float (`number` its pattern; any NaN is written 7ff8000000000000).
    Double,
    /// A length and a body (`text`).
    Bytes,
    /// The same, the body being UTF-8 (`text`).
    String,
    /// 16 bytes (`text`).
    Uuid,
    /// A list header (`kind`, `number` the size).
    ListBegin,
    /// A set header (`kind`, `number` the size).
    SetBegin,
    /// A map header (`kind` of the keys, `other` of the values, `number` the size, `absent`).
    MapBegin,
    /// Nothing.
    ListEnd,
    /// Nothing.
    SetEnd,
    /// Nothing.
    MapEnd,
    /// A frame (`text` the payload).
    Frame,
}

impl WriteStep {
    /// Every step, in the order of its number.
    pub const ALL: [WriteStep; 24] = [
        WriteStep::MessageBegin,
        WriteStep::MessageEnd,
        WriteStep::StructBegin,
        WriteStep::StructEnd,
        WriteStep::FieldBegin,
        WriteStep::FieldEnd,
        WriteStep::FieldStop,
        WriteStep::Byte,
        WriteStep::Bool,
        WriteStep::I8,
        WriteStep::I16,
        WriteStep::I32,
        WriteStep::I64,
        WriteStep::Double,
        WriteStep::Bytes,
        WriteStep::String,
        WriteStep::Uuid,
        WriteStep::ListBegin,
        WriteStep::SetBegin,
        WriteStep::MapBegin,
        WriteStep::ListEnd,
        WriteStep::SetEnd,
        WriteStep::MapEnd,
        WriteStep::Frame,
    ];
}

/// Which parts of a header are missing.
#[derive(Clone, Copy, Debug, Default, PartialEq, Eq)]
pub struct Absent {
    /// A field's id, or a map's key type.
    pub first: bool,
    /// A map's value type.
    pub second: bool,
}

impl Absent {
    /// Nothing is missing.
    pub const NONE: Absent = Absent {
        first: false,
        second: false,
    };

    /// As the archive takes it: bit 0 for the first, bit 1 for the second.
    pub fn bits(self) -> u8 {
        u8::from(self.first) | u8::from(self.second) << 1
    }
}

/// One write, with all that it may be told. A step looks only at what it needs.
#[derive(Clone, Copy, Debug)]
pub struct WriteCall<'a> {
    /// Where in the output to start.
    pub place: usize,
    /// What to write.
    pub step: WriteStep,
    /// Whether a message header has a version.
    pub strict: bool,
    /// What a message is.
    pub message: MessageType,
    /// The type of a field, of elements or of a map's keys.
    pub kind: StepType,
    /// The type of a map's values.
    pub other: StepType,
    /// What is missing.
    pub absent: Absent,
    /// A number by its bits.
    pub number: u64,
    /// A name, text, UUID or payload.
    pub text: &'a [u8],
    /// How many structs are open, at most 65,535.
    pub struct_depth: usize,
    /// How many may be, if that is limited.
    pub structs: Option<usize>,
}

impl<'a> WriteCall<'a> {
    /// A write of `step` at `place` with nothing told yet: a strict Call, the type Stop, with no struct open and the
    /// default limit on them.
    pub fn new(step: WriteStep, place: usize) -> WriteCall<'a> {
        WriteCall {
            place,
            step,
            strict: true,
            message: MessageType::Call,
            kind: StepType::Wire(TType::Stop),
            other: StepType::Wire(TType::Stop),
            absent: Absent::NONE,
            number: 0,
            text: &[],
            struct_depth: 0,
            structs: Some(64),
        }
    }
}
