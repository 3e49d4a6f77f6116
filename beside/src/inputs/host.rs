//! The desk's calls: every type byte, every depth's edge, starts at and beyond the end; the defaults, random limits, and
//! structs that are open already.

use turmyshge::{Limits, Skip, TType};

use super::damage::{damaged, Damage};
use super::short::strings;
use super::tree::{grow, Growth};
use super::trees::random_limits;
use super::Share;
use crate::published;
use crate::rng::Rng;
use crate::visitor::Visitor;

const FEW: [u8; 6] = [0x00, 0x01, 0x03, 0x0c, 0x0f, 0xff];
/// A struct of one i32.
const ONE_FIELD: [u8; 8] = [8, 0, 1, 0, 0, 0, 9, 0];
/// Where the random numbers of this file begin.
const STREAM: u64 = 1 << 40;
/// Random values, each skipped under some random limits.
const VALUES: u64 = 4_000;

/// A skip under the default limits.
fn by_default(depth: usize) -> Skip {
    Skip {
        depth,
        ..Skip::DEFAULT
    }
}

/// Shows skips by type byte.
pub fn show(visitor: &mut dyn Visitor, share: &Share) {
    strings(&FEW, 5, share, &mut |bytes| {
        for type_byte in 0..=0x12 {
            visitor.skip(bytes, 0, type_byte, &by_default(3));
        }
    });
    for type_byte in (0..=255).filter(|byte| share.takes(usize::from(*byte))) {
        for depth in [0, 1, 2, 64, 127, 128, usize::MAX] {
            for place in [0, 1, 7, 8, 9, usize::MAX] {
                visitor.skip(&ONE_FIELD, place, type_byte, &by_default(depth));
            }
        }
        show_struct_depths(visitor, type_byte);
    }
    for round in (0..VALUES).filter(|round| share.takes(*round as usize)) {
        show_value(visitor, &mut Rng::new(share.seed, STREAM + round));
    }
}

/// Struct depths around the limit on them and around the most, for a type byte.
fn show_struct_depths(visitor: &mut dyn Visitor, type_byte: u8) {
    for structs in [None, Some(0), Some(1), Some(64)] {
        let most: usize = structs.unwrap_or(2);
        for struct_depth in [0, most.saturating_sub(1), most, 65_536, usize::MAX] {
            let how = Skip {
                struct_depth,
                limits: Limits {
                    structs,
                    ..Limits::DEFAULT
                },
                ..Skip::DEFAULT
            };
            for place in [0, 7, 9] {
                visitor.skip(&ONE_FIELD, place, type_byte, &how);
            }
        }
    }
}

/// A random value, whole and damaged, under random limits and inside some open structs, of its own type and of any.
fn show_value(visitor: &mut dyn Visitor, rng: &mut Rng) {
    let levels = 1 + rng.below(8);
    let tree = grow(rng, Growth::usual(30, levels));
    let bytes = published::written(&tree.calls());
    let mut copies = vec![bytes.clone()];
    copies.extend(Damage::ALL.map(|how| damaged(&bytes, how, rng)));
    for copy in &copies {
        for type_byte in [tree.kind, TType::Struct, rng.pick(&TType::ALL)].map(TType::byte) {
            visitor.skip(copy, 0, type_byte, &random(rng));
        }
        let place = rng.below(copy.len() + 2);
        visitor.skip(copy, place, rng.below(0x13) as u8, &random(rng));
    }
}

/// Random limits, and no more structs open than they allow: no fresh reader of the crate gets to more.
fn random(rng: &mut Rng) -> Skip {
    let limits = random_limits(rng);
    Skip {
        depth: rng.pick(&[0, 1, 2, 3, 5, 8, 64, 127, 128]),
        struct_depth: rng.below(limits.structs.unwrap_or(70) + 1),
        limits,
    }
}
