//! Lists and sets whose elements have a fixed width. The port passes such elements together where all of them lie
//! within, and one by one where not: so each of these is cut at every byte, with every depth left for its elements,
//! from several places and inside every kind of value.

use turmyshge::steps::{Limits, ReadCall, ReadStep, TType};

use super::Share;
use crate::visitor::Visitor;

const FIXED: [(TType, usize); 7] = [
    (TType::Bool, 1),
    (TType::I08, 1),
    (TType::I16, 2),
    (TType::I32, 4),
    (TType::I64, 8),
    (TType::Double, 8),
    (TType::Uuid, 16),
];

/// Sizes from 0 on that are cut at every byte.
const SMALL: usize = 20;
/// Larger sizes, around powers of two; cut near both ends.
const LARGE: [usize; 14] = [
    31, 32, 33, 63, 64, 65, 127, 128, 129, 255, 256, 257, 1_000, 4_097,
];
/// How near. There may be as many bytes after the value.
const NEAR: usize = 40;

/// Bytes before the value, and bytes after it.
const MARGINS: [(usize, usize); 4] = [(0, 0), (1, 1), (3, 16), (8, NEAR)];

/// What a list or set stands in.
struct Around {
    /// The type of the whole.
    kind: TType,
    /// Levels above the list.
    levels: usize,
    before: Vec<u8>,
    after: Vec<u8>,
}

/// Shows all of these; the sizes are shared out.
pub fn show(visitor: &mut dyn Visitor, share: &Share) {
    let sizes = (0..=SMALL).chain(LARGE).enumerate();
    for (_, size) in sizes.filter(|(number, _)| share.takes(*number)) {
        for fixed in FIXED {
            for outer in [TType::List, TType::Set] {
                show_everywhere(visitor, outer, fixed, size);
            }
            show_limits(visitor, fixed, size);
            if size < 5 {
                show_maps(visitor, fixed, size);
            }
        }
    }
    if share.takes(0) {
        show_missing(visitor);
    }
}

/// A list's bytes that says it has `size` elements and has `held`. No two neighbours among their bytes are alike.
fn list((kind, width): (TType, usize), size: usize, held: usize) -> Vec<u8> {
    let mut bytes = vec![kind.byte()];
    bytes.extend((size as u32).to_be_bytes());
    bytes.extend((0..held * width).map(|i| (i * 37 + 11) as u8));
    bytes
}

/// The list alone, and as a field, a key, a value and an element, with something after it where the whole goes on.
fn arounds(outer: TType) -> Vec<Around> {
    let it = outer.byte();
    let around = |kind, levels, before: &[u8], after: &[u8]| Around {
        kind,
        levels,
        before: before.to_vec(),
        after: after.to_vec(),
    };
    vec![
        around(outer, 0, &[], &[]),
        around(TType::Struct, 1, &[it, 0, 1], &[0x02, 0, 2, 1, 0]),
        around(TType::Map, 1, &[it, 0x06, 0, 0, 0, 1], &[1, 2]),
        around(TType::Map, 1, &[0x03, it, 0, 0, 0, 1, 7], &[]),
        around(TType::List, 1, &[it, 0, 0, 0, 2], &[0x03, 0, 0, 0, 1, 9]),
        around(TType::Set, 1, &[it, 0, 0, 0, 1], &[]),
        around(TType::List, 2, &[0x0c, 0, 0, 0, 1, it, 0, 1], &[0]),
    ]
}

fn show_everywhere(visitor: &mut dyn Visitor, outer: TType, fixed: (TType, usize), size: usize) {
    let list = list(fixed, size, size);
    for around in arounds(outer) {
        let whole = [&around.before[..], &list, &around.after].concat();
        for (before, after) in MARGINS {
            let bytes = [&vec![0xff; before], &whole[..], &vec![0x0f; after]].concat();
            show_cuts(visitor, &around, &bytes, before, size);
        }
    }
}

/// A value at `place`, cut at every byte (of a large one near its ends), at the depths that leave the list none, and
/// its elements none, one and two.
fn show_cuts(visitor: &mut dyn Visitor, around: &Around, bytes: &[u8], place: usize, size: usize) {
    let wanted =
        |end: &usize| size <= SMALL || *end < place + NEAR || *end + 2 * NEAR > bytes.len();
    for end in (place..=bytes.len()).filter(wanted) {
        for left in 0..=3 {
            let call = ReadCall {
                depth: around.levels + left,
                ..ReadCall::new(ReadStep::Skip, &bytes[..end], place).of(around.kind)
            };
            visitor.read(&call);
        }
    }
}

/// The list under message and container limits at, below and above what it takes, whole and with a byte less.
fn show_limits(visitor: &mut dyn Visitor, fixed: (TType, usize), size: usize) {
    let bytes = list(fixed, size, size);
    let near = |n: usize| [n.saturating_sub(1), n, n + 1].map(Some);
    for message in near(size * fixed.1) {
        for container in near(size).into_iter().chain([None]) {
            let limits = Limits {
                message,
                container,
                ..Limits::DEFAULT
            };
            for end in [bytes.len() - 1, bytes.len()] {
                for depth in [1, 2] {
                    let call = ReadCall {
                        depth,
                        ..ReadCall::new(ReadStep::Skip, &bytes[..end], 0)
                            .of(TType::List)
                            .under(limits)
                    };
                    visitor.read(&call);
                }
            }
        }
    }
}

/// Sizes up to the greatest, of which a few elements are there.
fn show_missing(visitor: &mut dyn Visitor) {
    let sizes = [1, 2, 3, 4, 0xffff, 0x0100_0000, 0x7fff_fffe, 0x7fff_ffff];
    for (fixed, size) in FIXED.into_iter().flat_map(|f| sizes.map(|size| (f, size))) {
        for held in (0..4).filter(|held| *held < size) {
            let bytes = list(fixed, size, held);
            for limits in [Limits::NONE, Limits::DEFAULT] {
                let call = ReadCall::new(ReadStep::Skip, &bytes, 0).under(limits);
                visitor.read(&call.of(TType::List));
                visitor.read(&call.of(TType::Set));
            }
        }
    }
}

/// Maps from elements of this width to those of each.
fn show_maps(visitor: &mut dyn Visitor, (key, width): (TType, usize), size: usize) {
    for (value, value_width) in FIXED {
        let mut bytes = vec![key.byte(), value.byte()];
        bytes.extend((size as u32).to_be_bytes());
        bytes.resize(bytes.len() + size * (width + value_width), 0x5a);
        let around = Around {
            kind: TType::Map,
            levels: 0,
            before: Vec::new(),
            after: Vec::new(),
        };
        show_cuts(visitor, &around, &bytes, 0, size);
    }
}
