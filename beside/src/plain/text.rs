//! A length, then that many bytes.

use std::ops::Range;

use turmyshge::steps::Limits;
use turmyshge::Kind;

use super::number::unsigned;
use super::{refuse, Read};

/// A body's start and end as a read's values.
pub fn values((body, end): (Range<usize>, usize)) -> ([u64; 4], usize) {
    ([body.start as u64, body.end as u64, 0, 0], end)
}

/// A size that must not be negative.
#[inline]
pub fn size(bytes: &[u8], at: usize) -> Read<usize> {
    let (bits, end) = unsigned::<4>(bytes, at)?;
    if bits > i32::MAX as u64 {
        return refuse(Kind::NegativeSize, at);
    }
    Ok((bits as usize, end))
}

/// `length` bytes that must all be there.
#[inline]
pub fn body(bytes: &[u8], at: usize, length: usize) -> Read<Range<usize>> {
    if bytes.len() - at < length {
        return refuse(Kind::ShortInput, at);
    }
    Ok((at..at + length, at + length))
}

/// A length within the limit, and the body.
#[inline]
pub fn bytes(bytes: &[u8], at: usize, limits: &Limits) -> Read<Range<usize>> {
    let (length, start) = size(bytes, at)?;
    if limits.string.is_some_and(|limit| length > limit) {
        return refuse(Kind::StringLimit, at);
    }
    body(bytes, start, length)
}

/// The same, the body being UTF-8.
pub fn string(all: &[u8], at: usize, limits: &Limits) -> Read<Range<usize>> {
    let (body, end) = bytes(all, at, limits)?;
    utf8(all, body.clone())?;
    Ok((body, end))
}

/// Refuses a part that is not UTF-8.
pub fn utf8(bytes: &[u8], part: Range<usize>) -> Read<()> {
    let (start, end) = (part.start, part.end);
    match std::str::from_utf8(&bytes[part]) {
        Ok(_) => Ok(((), end)),
        Err(_) => refuse(Kind::NotUtf8, start),
    }
}

/// 16 bytes.
pub fn uuid(bytes: &[u8], at: usize) -> Read<Range<usize>> {
    body(bytes, at, 16)
}
