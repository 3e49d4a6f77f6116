//! Writes by name. Each puts its bytes at a place in `out` and answers the place after them; refused, it leaves every
//! byte of `out` as it was.

use super::{write, Absent, MessageType, StepRefusal, TType, WriteCall, WriteStep};

/// The place after what was written, or a refusal.
pub type Written = Result<usize, StepRefusal>;

fn ended(call: WriteCall<'_>, out: &mut [u8]) -> Written {
    let answer = write(&call, out).expect("the named calls fit their steps");
    answer.into_result().map(|(_, end)| end)
}

fn number(step: WriteStep, out: &mut [u8], place: usize, number: u64) -> Written {
    let call = WriteCall {
        number,
        ..WriteCall::new(step, place)
    };
    ended(call, out)
}

fn text(step: WriteStep, out: &mut [u8], place: usize, text: &[u8]) -> Written {
    let call = WriteCall {
        text,
        ..WriteCall::new(step, place)
    };
    ended(call, out)
}

/// A bool, as 0 or 1. Refuses 2, 15.
pub fn write_bool(out: &mut [u8], place: usize, value: bool) -> Written {
    number(WriteStep::Bool, out, place, u64::from(value))
}

/// A signed byte. Refuses 2, 15.
pub fn write_i8(out: &mut [u8], place: usize, value: i8) -> Written {
    number(WriteStep::I8, out, place, u64::from(value as u8))
}

/// A signed number of 2 bytes. Refuses 2, 15.
pub fn write_i16(out: &mut [u8], place: usize, value: i16) -> Written {
    number(WriteStep::I16, out, place, u64::from(value as u16))
}

/// A signed number of 4 bytes. Refuses 2, 15.
pub fn write_i32(out: &mut [u8], place: usize, value: i32) -> Written {
    number(WriteStep::I32, out, place, u64::from(value as u32))
}

/// A signed number of 8 bytes. Refuses 2, 15.
///
/// ```
/// use turmyshge::steps::write_i64;
///
/// let mut out = [0; 8];
/// assert_eq!(write_i64(&mut out, 0, 25), Ok(8));
/// assert_eq!(out, [0, 0, 0, 0, 0, 0, 0, 25]);
/// assert!(write_i64(&mut out, 1, -1).is_err());
/// assert_eq!(out, [0, 0, 0, 0, 0, 0, 0, 25]);
/// ```
pub fn write_i64(out: &mut [u8], place: usize, value: i64) -> Written {
    number(WriteStep::I64, out, place, value as u64)
}

/// A 64-bit float; any NaN as 7ff8000000000000. Refuses 2, 15.
pub fn write_double(out: &mut [u8], place: usize, value: f64) -> Written {
    number(WriteStep::Double, out, place, value.to_bits())
}

/// A length and the bytes. Refuses 2, 16, 15.
pub fn write_bytes(out: &mut [u8], place: usize, body: &[u8]) -> Written {
    text(WriteStep::Bytes, out, place, body)
}

/// A length and the text. Refuses 2, 16, 15.
///
/// ```
/// use turmyshge::steps::write_string;
///
/// let mut out = [0; 6];
/// assert_eq!(write_string(&mut out, 0, "A7"), Ok(6));
/// assert_eq!(out, [0, 0, 0, 2, b'A', b'7']);
/// ```
pub fn write_string(out: &mut [u8], place: usize, body: &str) -> Written {
    text(WriteStep::String, out, place, body.as_bytes())
}

/// 16 bytes. Refuses 2, 15.
pub fn write_uuid(out: &mut [u8], place: usize, uuid: [u8; 16]) -> Written {
    text(WriteStep::Uuid, out, place, &uuid)
}

/// A field header. An absent id is refused unless the type is Stop. Refuses 2, 17, 15.
///
/// ```
/// use turmyshge::steps::{write_field_begin, TType};
/// use turmyshge::Kind;
///
/// let mut out = [0; 3];
/// assert_eq!(write_field_begin(&mut out, 0, TType::I32, Some(9)), Ok(3));
/// assert_eq!(out, [0x08, 0, 9]);
/// let refused = write_field_begin(&mut out, 0, TType::I32, None).unwrap_err();
/// assert_eq!(refused.kind, Kind::Missing);
/// ```
pub fn write_field_begin(out: &mut [u8], place: usize, kind: TType, id: Option<i16>) -> Written {
    let call = WriteCall {
        kind: kind.into(),
        number: u64::from(id.unwrap_or(0) as u16),
        absent: Absent {
            first: id.is_none(),
            second: false,
        },
        ..WriteCall::new(WriteStep::FieldBegin, place)
    };
    ended(call, out)
}

/// The byte that ends a struct's fields. Refuses 2, 15.
pub fn write_field_stop(out: &mut [u8], place: usize) -> Written {
    ended(WriteCall::new(WriteStep::FieldStop, place), out)
}

fn elements(step: WriteStep, out: &mut [u8], place: usize, kind: TType, size: i32) -> Written {
    let call = WriteCall {
        kind: kind.into(),
        number: u64::from(size as u32),
        ..WriteCall::new(step, place)
    };
    ended(call, out)
}

/// A list header; a negative size is written as given. Refuses 2, 15.
///
/// ```
/// use turmyshge::steps::{write_list_begin, TType};
///
/// let mut out = [0; 5];
/// assert_eq!(write_list_begin(&mut out, 0, TType::I08, 2), Ok(5));
/// assert_eq!(out, [0x03, 0, 0, 0, 2]);
/// ```
pub fn write_list_begin(out: &mut [u8], place: usize, kind: TType, size: i32) -> Written {
    elements(WriteStep::ListBegin, out, place, kind, size)
}

/// A set header; a negative size is written as given. Refuses 2, 15.
pub fn write_set_begin(out: &mut [u8], place: usize, kind: TType, size: i32) -> Written {
    elements(WriteStep::SetBegin, out, place, kind, size)
}

/// A map header; a negative size is written as given. Refuses 2, 15.
pub fn write_map_begin(
    out: &mut [u8],
    place: usize,
    keys: TType,
    values: TType,
    size: i32,
) -> Written {
    let call = WriteCall {
        kind: keys.into(),
        other: values.into(),
        number: u64::from(size as u32),
        ..WriteCall::new(WriteStep::MapBegin, place)
    };
    ended(call, out)
}

/// A message header, with a version where `strict`. Refuses 2, 16, 15.
///
/// ```
/// use turmyshge::steps::{write_message_begin, MessageType};
///
/// let mut out = [0; 14];
/// assert_eq!(write_message_begin(&mut out, 0, true, "ab", MessageType::Call, 7), Ok(14));
/// assert_eq!(out, [0x80, 1, 0, 1, 0, 0, 0, 2, b'a', b'b', 0, 0, 0, 7]);
/// ```
pub fn write_message_begin(
    out: &mut [u8],
    place: usize,
    strict: bool,
    name: &str,
    kind: MessageType,
    sequence: i32,
) -> Written {
    let call = WriteCall {
        strict,
        message: kind,
        number: u64::from(sequence as u32),
        text: name.as_bytes(),
        ..WriteCall::new(WriteStep::MessageBegin, place)
    };
    ended(call, out)
}

/// A frame: length and payload, or nothing for an empty payload. Refuses 2, 16, 15.
///
/// ```
/// use turmyshge::steps::write_frame;
///
/// let mut line = [0; 6];
/// assert_eq!(write_frame(&mut line, 0, b"hi"), Ok(6));
/// assert_eq!(line, [0, 0, 0, 2, b'h', b'i']);
/// assert_eq!(write_frame(&mut line, 3, b""), Ok(3));
/// ```
pub fn write_frame(out: &mut [u8], place: usize, payload: &[u8]) -> Written {
    text(WriteStep::Frame, out, place, payload)
}
