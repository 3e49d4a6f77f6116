//! Bytes damaged in one place.

use crate::rng::Rng;

/// The ways in which bytes are damaged.
#[derive(Clone, Copy)]
pub enum Damage {
    /// One byte made another.
    Changed,
    /// Cut short.
    Cut,
    /// A byte put in.
    Grown,
    /// Two bytes swapped.
    Swapped,
}

impl Damage {
    /// Every way.
    pub const ALL: [Damage; 4] = [Damage::Changed, Damage::Cut, Damage::Grown, Damage::Swapped];
}

/// A damaged copy.
pub fn damaged(bytes: &[u8], how: Damage, rng: &mut Rng) -> Vec<u8> {
    let mut copy = bytes.to_vec();
    if bytes.is_empty() {
        return copy;
    }
    let at = rng.below(bytes.len());
    match how {
        // half of the time to a small number, which is likelier to be a type or a size
        Damage::Changed if rng.once_in(2) => copy[at] = rng.below(17) as u8,
        Damage::Changed => copy[at] = rng.bits() as u8,
        Damage::Cut => copy.truncate(at),
        Damage::Grown => copy.insert(at, rng.below(17) as u8),
        Damage::Swapped => copy.swap(at, rng.below(bytes.len())),
    }
    copy
}
