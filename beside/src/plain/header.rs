//! Headers of fields, containers, structs and messages.

use turmyshge::steps::{Limits, MessageType, StepRefusal, TType};
use turmyshge::Kind;

use super::number::{item, unsigned};
use super::{refuse, text, Read, MOST_STRUCTS};

/// A type by its byte.
#[inline]
pub fn type_byte(bytes: &[u8], at: usize) -> Read<TType> {
    let ([byte], end) = item::<1>(bytes, at)?;
    match KINDS.get(usize::from(byte)) {
        Some(Some(kind)) => Ok((*kind, end)),
        _ => refuse(Kind::UnknownType, at),
    }
}

/// What the bytes from 00 to 10 stand for.
const KINDS: [Option<TType>; 17] = [
    Some(TType::Stop),
    Some(TType::Void),
    Some(TType::Bool),
    Some(TType::I08),
    Some(TType::Double),
    None,
    Some(TType::I16),
    None,
    Some(TType::I32),
    None,
    Some(TType::I64),
    Some(TType::String),
    Some(TType::Struct),
    Some(TType::Map),
    Some(TType::Set),
    Some(TType::List),
    Some(TType::Uuid),
];

/// The least bytes that a value of a type takes, as the rules count them.
fn least(kind: TType) -> usize {
    match kind {
        TType::I16 => 2,
        TType::I32 | TType::String | TType::Map | TType::Set | TType::List => 4,
        TType::I64 | TType::Double => 8,
        TType::Uuid => 16,
        _ => 1,
    }
}

/// A field's type byte and id.
pub fn field(bytes: &[u8], at: usize) -> Read<[u64; 4]> {
    let (kind, end) = type_byte(bytes, at)?;
    if kind == TType::Stop {
        return Ok(([0; 4], end));
    }
    let (id, end) = unsigned::<2>(bytes, end)?;
    Ok(([kind.byte().into(), id, 0, 0], end))
}

/// A container's size, whose elements take at least `least` bytes each.
fn count(bytes: &[u8], at: usize, least: usize, limits: &Limits) -> Read<usize> {
    let (size, end) = text::size(bytes, at)?;
    if limits.container.is_some_and(|limit| size > limit) {
        return refuse(Kind::ContainerLimit, at);
    }
    if limits.message.is_some_and(|limit| size * least > limit) {
        return refuse(Kind::MessageLimit, at);
    }
    Ok((size, end))
}

/// A list's or set's element type and size.
#[inline]
pub fn list(bytes: &[u8], at: usize, limits: &Limits) -> Read<(TType, usize)> {
    let (kind, end) = type_byte(bytes, at)?;
    let (size, end) = count(bytes, end, least(kind), limits)?;
    Ok(((kind, size), end))
}

/// A map's key type, value type and size.
#[inline]
pub fn map(bytes: &[u8], at: usize, limits: &Limits) -> Read<(TType, TType, usize)> {
    let (key, end) = type_byte(bytes, at)?;
    let (value, end) = type_byte(bytes, end)?;
    let (size, end) = count(bytes, end, least(key) + least(value), limits)?;
    Ok(((key, value, size), end))
}

/// A list header as a read's values.
pub fn list_values(bytes: &[u8], at: usize, limits: &Limits) -> Read<[u64; 4]> {
    let ((kind, size), end) = list(bytes, at, limits)?;
    Ok(([kind.byte().into(), size as u64, 0, 0], end))
}

/// A map header as a read's values.
pub fn map_values(bytes: &[u8], at: usize, limits: &Limits) -> Read<[u64; 4]> {
    let ((key, value, size), end) = map(bytes, at, limits)?;
    Ok((
        [key.byte().into(), value.byte().into(), size as u64, 0],
        end,
    ))
}

/// The struct depth after a begin.
#[inline]
pub fn struct_begin(at: usize, open: usize, limit: Option<usize>) -> Result<usize, StepRefusal> {
    if open >= MOST_STRUCTS || limit.is_some_and(|limit| open >= limit) {
        return refuse(Kind::StructDepth, at);
    }
    Ok(open + 1)
}

/// The struct depth after an end.
pub fn struct_end(at: usize, open: usize) -> Result<usize, StepRefusal> {
    match open.checked_sub(1) {
        Some(left) => Ok(left),
        None => refuse(Kind::NoStructOpen, at),
    }
}

/// A message type's byte.
pub fn message_type(bytes: &[u8], at: usize) -> Read<u64> {
    let ([byte], end) = item::<1>(bytes, at)?;
    match MessageType::from_byte(byte) {
        Some(_) => Ok((byte.into(), end)),
        None => refuse(Kind::BadMessageType, at),
    }
}

/// A message's name (start and end), type and sequence number.
pub fn message(bytes: &[u8], at: usize, strict: bool, limits: &Limits) -> Read<[u64; 4]> {
    let (head, end) = item::<4>(bytes, at)?;
    let versioned = head[0] >= 0x80;
    if (versioned && head[..2] != [0x80, 0x01]) || (!versioned && strict) {
        return refuse(Kind::BadVersion, at);
    }
    let (name, kind, end) = if versioned {
        let (kind, _) = message_type(bytes, at + 3)?;
        let (name, end) = text::string(bytes, end, limits)?;
        (name, kind, end)
    } else {
        let (name, end) = text::string(bytes, at, limits)?;
        let (kind, end) = message_type(bytes, end)?;
        (name, kind, end)
    };
    let (sequence, end) = unsigned::<4>(bytes, end)?;
    Ok(([name.start as u64, name.end as u64, kind, sequence], end))
}
