//! Bytes in hex.

use std::fmt::Write as _;

/// Bytes that a report shows of a longer input: more than any but the frames at their limit have.
const SHOWN: usize = 65_536;

/// All the bytes.
pub fn whole(bytes: &[u8]) -> String {
    bytes.iter().fold(String::new(), |mut text, byte| {
        let _ = write!(text, "{byte:02x}");
        text
    })
}

/// The first bytes, and how many there are where that is not all.
pub fn cut(bytes: &[u8]) -> String {
    match bytes.get(..SHOWN) {
        Some(first) if bytes.len() > SHOWN => {
            format!("{}.. ({} bytes)", whole(first), bytes.len())
        }
        _ => whole(bytes),
    }
}
