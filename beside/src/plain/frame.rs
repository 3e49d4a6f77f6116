//! Frames.

use turmyshge::Kind;

use super::{refuse, text, Read};

/// A frame's payload by its places, or its absence where no byte is left.
pub fn read(bytes: &[u8], at: usize, limit: Option<usize>) -> Read<[u64; 4]> {
    if at == bytes.len() {
        return Ok(([0; 4], at));
    }
    let (length, start) = text::size(bytes, at)?;
    if limit.is_some_and(|limit| length > limit) {
        return refuse(Kind::FrameLimit, at);
    }
    let (payload, end) = text::body(bytes, start, length)?;
    Ok(([1, payload.start as u64, payload.end as u64, 0], end))
}
