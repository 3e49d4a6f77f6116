//! Big-endian numbers.

use turmyshge::steps::StepType;
use turmyshge::{Kind, TType};

use super::{refuse, Read};

/// The one pattern that any NaN is given as.
pub const NAN: u64 = 0x7ff8_0000_0000_0000;

/// `N` bytes that must all be there.
#[inline]
pub fn item<const N: usize>(bytes: &[u8], at: usize) -> Read<[u8; N]> {
    match bytes.get(at..).and_then(|rest| rest.first_chunk::<N>()) {
        Some(found) => Ok((*found, at + N)),
        None => refuse(Kind::ShortInput, at),
    }
}

/// A number of `N` bytes, by its bits.
#[inline]
pub fn unsigned<const N: usize>(bytes: &[u8], at: usize) -> Read<u64> {
    let (found, end) = item::<N>(bytes, at)?;
    let value = found
        .iter()
        .fold(0, |high, low| high << 8 | u64::from(*low));
    Ok((value, end))
}

/// 0 is false, any other byte true.
pub fn boolean(bytes: &[u8], at: usize) -> Read<u64> {
    let (byte, end) = unsigned::<1>(bytes, at)?;
    Ok((u64::from(byte != 0), end))
}

/// A pattern with every NaN made the one.
pub fn one_nan(pattern: u64) -> u64 {
    if f64::from_bits(pattern).is_nan() {
        NAN
    } else {
        pattern
    }
}

/// A 64-bit float, by its pattern.
pub fn double(bytes: &[u8], at: usize) -> Read<u64> {
    let (pattern, end) = unsigned::<8>(bytes, at)?;
    Ok((one_nan(pattern), end))
}

/// A scalar of the type asked for.
pub fn scalar(bytes: &[u8], at: usize, kind: StepType) -> Read<[u64; 4]> {
    let (value, end) = match kind.wire() {
        Some(TType::Bool) => boolean(bytes, at),
        Some(TType::I08) => unsigned::<1>(bytes, at),
        Some(TType::I16) => unsigned::<2>(bytes, at),
        Some(TType::I32) => unsigned::<4>(bytes, at),
        Some(TType::I64) => unsigned::<8>(bytes, at),
        Some(TType::Double) => double(bytes, at),
        _ => refuse(Kind::WrongType, at),
    }?;
    Ok(([kind.byte().into(), value, 0, 0], end))
}
