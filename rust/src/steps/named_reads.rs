//! Reads by name. Each takes the bytes and a place, and answers the value and the place after it.

use std::ops::Range;

use super::{read, Limits, MessageType, ReadCall, ReadStep, StepRefusal, TType};
use crate::skip::in_memory;

/// A value and the place after it, or a refusal.
pub type Read<T> = Result<(T, usize), StepRefusal>;

fn values(call: ReadCall<'_>) -> Read<[u64; 4]> {
    read(&call).into_result()
}

fn first(step: ReadStep, bytes: &[u8], place: usize) -> Read<u64> {
    let ([a, ..], end) = values(ReadCall::new(step, bytes, place))?;
    Ok((a, end))
}

fn part(step: ReadStep, bytes: &[u8], place: usize, limits: Limits) -> Read<&[u8]> {
    let ([from, to, ..], end) = values(ReadCall::new(step, bytes, place).under(limits))?;
    Ok((&bytes[in_memory(from)..in_memory(to)], end))
}

fn type_of(byte: u64) -> TType {
    u8::try_from(byte)
        .ok()
        .and_then(TType::from_byte)
        .expect("the codec answers known types only")
}

/// A bool: one byte, 0 for false. Refuses 2, 1.
pub fn read_bool(bytes: &[u8], place: usize) -> Read<bool> {
    first(ReadStep::Bool, bytes, place).map(|(v, end)| (v != 0, end))
}

/// A signed byte. Refuses 2, 1.
pub fn read_i8(bytes: &[u8], place: usize) -> Read<i8> {
    first(ReadStep::I8, bytes, place).map(|(v, end)| (v as i8, end))
}

/// A signed number of 2 bytes. Refuses 2, 1.
pub fn read_i16(bytes: &[u8], place: usize) -> Read<i16> {
    first(ReadStep::I16, bytes, place).map(|(v, end)| (v as i16, end))
}

/// A signed number of 4 bytes. Refuses 2, 1.
pub fn read_i32(bytes: &[u8], place: usize) -> Read<i32> {
    first(ReadStep::I32, bytes, place).map(|(v, end)| (v as i32, end))
}

/// A signed number of 8 bytes. Refuses 2, 1.
///
/// ```
/// use turmyshge::steps::read_i64;
///
/// let bytes = [0, 0, 0, 0, 0, 0, 0, 25, 9];
/// assert_eq!(read_i64(&bytes, 0), Ok((25, 8)));
/// assert_eq!(read_i64(&bytes, 2).unwrap_err().place, 2);
/// ```
pub fn read_i64(bytes: &[u8], place: usize) -> Read<i64> {
    first(ReadStep::I64, bytes, place).map(|(v, end)| (v as i64, end))
}

/// A 64-bit float; any NaN is the one NaN. Refuses 2, 1.
pub fn read_double(bytes: &[u8], place: usize) -> Read<f64> {
    first(ReadStep::Double, bytes, place).map(|(v, end)| (f64::from_bits(v), end))
}

/// A length and that many bytes, handed back as a part of `bytes`. Refuses 2, 1, 6, 7, 1.
pub fn read_bytes(bytes: &[u8], place: usize, limits: Limits) -> Read<&[u8]> {
    part(ReadStep::Bytes, bytes, place, limits)
}

/// A length and that many bytes of UTF-8, handed back as a part of `bytes`. Refuses 2, 1, 6, 7, 1, 13.
///
/// ```
/// use turmyshge::steps::{read_string, Limits};
/// use turmyshge::Kind;
///
/// let bytes = [0, 0, 0, 2, b'A', b'7'];
/// assert_eq!(read_string(&bytes, 0, Limits::DEFAULT), Ok(("A7", 6)));
///
/// let short = Limits { string: Some(1), ..Limits::DEFAULT };
/// assert_eq!(read_string(&bytes, 0, short).unwrap_err().kind, Kind::StringLimit);
/// ```
pub fn read_string(bytes: &[u8], place: usize, limits: Limits) -> Read<&str> {
    let (body, end) = part(ReadStep::String, bytes, place, limits)?;
    let text = std::str::from_utf8(body).expect("the codec has checked it");
    Ok((text, end))
}

/// 16 bytes, handed back as a part of `bytes`. Refuses 2, 1.
pub fn read_uuid(bytes: &[u8], place: usize) -> Read<&[u8]> {
    part(ReadStep::Uuid, bytes, place, Limits::DEFAULT)
}

/// A field header: its type and id; Stop has id 0. Refuses 2, 1, 5, 1.
///
/// ```
/// use turmyshge::steps::{read_field_begin, TType};
///
/// let bytes = [0x08, 0, 1, 0, 0, 0, 9, 0];
/// assert_eq!(read_field_begin(&bytes, 0), Ok(((TType::I32, 1), 3)));
/// assert_eq!(read_field_begin(&bytes, 7), Ok(((TType::Stop, 0), 8)));
/// ```
pub fn read_field_begin(bytes: &[u8], place: usize) -> Read<(TType, i16)> {
    let ([kind, id, ..], end) = values(ReadCall::new(ReadStep::FieldBegin, bytes, place))?;
    Ok(((type_of(kind), id as i16), end))
}

fn elements(step: ReadStep, bytes: &[u8], place: usize, limits: Limits) -> Read<(TType, i32)> {
    let ([kind, size, ..], end) = values(ReadCall::new(step, bytes, place).under(limits))?;
    Ok(((type_of(kind), size as i32), end))
}

/// A list header: element type and size. Refuses 2, 1, 5, 1, 6, 8, 9.
///
/// ```
/// use turmyshge::steps::{read_list_begin, Limits, TType};
///
/// let bytes = [0x03, 0, 0, 0, 2, 5, 6];
/// assert_eq!(read_list_begin(&bytes, 0, Limits::DEFAULT), Ok(((TType::I08, 2), 5)));
/// ```
pub fn read_list_begin(bytes: &[u8], place: usize, limits: Limits) -> Read<(TType, i32)> {
    elements(ReadStep::ListBegin, bytes, place, limits)
}

/// A set header: element type and size. Refuses 2, 1, 5, 1, 6, 8, 9.
pub fn read_set_begin(bytes: &[u8], place: usize, limits: Limits) -> Read<(TType, i32)> {
    elements(ReadStep::SetBegin, bytes, place, limits)
}

/// A map header: key type, value type and size. Refuses 2, 1, 5, 1, 5, 1, 6, 8, 9.
///
/// ```
/// use turmyshge::steps::{read_map_begin, Limits, TType};
///
/// let bytes = [0x0b, 0x0a, 0, 0, 0, 0];
/// let header = (TType::String, TType::I64, 0);
/// assert_eq!(read_map_begin(&bytes, 0, Limits::DEFAULT), Ok((header, 6)));
/// ```
pub fn read_map_begin(bytes: &[u8], place: usize, limits: Limits) -> Read<(TType, TType, i32)> {
    let call = ReadCall::new(ReadStep::MapBegin, bytes, place).under(limits);
    let ([key, value, size, _], end) = values(call)?;
    Ok(((type_of(key), type_of(value), size as i32), end))
}

/// A message header.
#[derive(Clone, Copy, Debug, PartialEq, Eq)]
pub struct Message<'a> {
    /// The call's name, a part of the bytes read.
    pub name: &'a str,
    /// What the message is.
    pub kind: MessageType,
    /// The number that an answer repeats.
    pub sequence: i32,
}

/// A message header; `strict` asks for a version. Refuses 2, 1, 3, 4, then as [`read_string`] and [`read_i32`] do;
/// without a version 7, 1, 13 for the name, then 1, 4 and 1.
///
/// ```
/// use turmyshge::steps::{read_message_begin, Limits, MessageType};
///
/// let bytes = [0x80, 1, 0, 1, 0, 0, 0, 2, b'a', b'b', 0, 0, 0, 7];
/// let (message, end) = read_message_begin(&bytes, 0, true, Limits::DEFAULT).unwrap();
/// assert_eq!((message.name, message.kind), ("ab", MessageType::Call));
/// assert_eq!((message.sequence, end), (7, 14));
/// ```
pub fn read_message_begin(
    bytes: &[u8],
    place: usize,
    strict: bool,
    limits: Limits,
) -> Read<Message<'_>> {
    let call = ReadCall {
        strict,
        ..ReadCall::new(ReadStep::MessageBegin, bytes, place).under(limits)
    };
    let ([from, to, kind, sequence], end) = values(call)?;
    let name = std::str::from_utf8(&bytes[in_memory(from)..in_memory(to)])
        .expect("the codec has checked it");
    let kind = u8::try_from(kind)
        .ok()
        .and_then(MessageType::from_byte)
        .expect("the codec answers 1 to 4");
    let message = Message {
        name,
        kind,
        sequence: sequence as i32,
    };
    Ok((message, end))
}

/// A frame's payload, by its places; none where no byte is left. Refuses 2, 1, 6, 18, 1.
///
/// ```
/// use turmyshge::steps::{read_frame, Limits};
///
/// let line = [0, 0, 0, 2, b'h', b'i'];
/// assert_eq!(read_frame(&line, 0, Limits::DEFAULT), Ok((Some(4..6), 6)));
/// assert_eq!(read_frame(&line, 6, Limits::DEFAULT), Ok((None, 6)));
/// ```
pub fn read_frame(bytes: &[u8], place: usize, limits: Limits) -> Read<Option<Range<usize>>> {
    let call = ReadCall::new(ReadStep::Frame, bytes, place).under(limits);
    let ([found, from, to, _], end) = values(call)?;
    let payload = (found == 1).then(|| in_memory(from)..in_memory(to));
    Ok((payload, end))
}
