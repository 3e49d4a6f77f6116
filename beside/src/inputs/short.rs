//! Every short string of bytes.

use turmyshge::steps::{ReadCall, ReadStep};

use super::reads;
use super::Share;
use crate::visitor::Visitor;

/// Bytes on which a reader's way divides: lengths, types of each shape, a version's first bytes, signs.
const TELLING: [u8; 9] = [0x00, 0x01, 0x02, 0x0b, 0x0c, 0x0d, 0x0f, 0x80, 0xff];

/// The same for frames: lengths that are short, at the limit's first bytes, and negative.
const TELLING_FRAMES: [u8; 7] = [0x00, 0x01, 0x02, 0x03, 0x04, 0xfa, 0xff];

/// Shows every string of up to `longest` bytes from `alphabet`, the share's part of it by first byte.
pub fn strings(alphabet: &[u8], longest: usize, share: &Share, show: &mut dyn FnMut(&[u8])) {
    if share.takes(0) {
        show(&[]);
    }
    for length in 1..=longest {
        for (number, first) in alphabet.iter().enumerate() {
            if share.takes(number) {
                grow(alphabet, length, &mut vec![*first], show);
            }
        }
    }
}

fn grow(alphabet: &[u8], length: usize, string: &mut Vec<u8>, show: &mut dyn FnMut(&[u8])) {
    if string.len() == length {
        return show(string);
    }
    for byte in alphabet {
        string.push(*byte);
        grow(alphabet, length, string, show);
        string.pop();
    }
}

fn show_strings(
    visitor: &mut dyn Visitor,
    share: &Share,
    calls: &[ReadCall<'_>],
    alphabet: &[u8],
    longest: usize,
) {
    strings(alphabet, longest, share, &mut |bytes| {
        for call in calls {
            visitor.read(&ReadCall { bytes, ..*call });
        }
    });
}

fn all_bytes() -> Vec<u8> {
    (0..=255).collect()
}

/// Every string of 0 to 2 bytes, to every read and every type's skip.
pub fn show_all(visitor: &mut dyn Visitor, share: &Share) {
    show_strings(visitor, share, &reads::every(), &all_bytes(), 2);
}

/// Every string of 0 to 3 bytes, but for a step that the crate doesn't have: a scalar read of a type that is no
/// scalar's.
pub fn show_whole(visitor: &mut dyn Visitor, share: &Share) {
    let (mut calls, others) = reads::by_bytes();
    calls.extend(
        others
            .into_iter()
            .filter(|call| call.step != ReadStep::Scalar),
    );
    show_strings(visitor, share, &calls, &all_bytes(), 3);
}

/// Every string of 0 to 6 telling bytes.
pub fn show_telling(visitor: &mut dyn Visitor, share: &Share) {
    let (frames, others): (Vec<_>, Vec<_>) = reads::all()
        .into_iter()
        .partition(|call| call.step == ReadStep::Frame);
    show_strings(visitor, share, &others, &TELLING, 6);
    show_strings(visitor, share, &frames, &TELLING_FRAMES, 6);
}

/// Skips of every string of 0 to 5 telling bytes at the depths that end sooner.
pub fn show_shallow(visitor: &mut dyn Visitor, share: &Share) {
    let calls: Vec<_> = (0..3).flat_map(reads::skips).collect();
    show_strings(visitor, share, &calls, &TELLING, 5);
}
