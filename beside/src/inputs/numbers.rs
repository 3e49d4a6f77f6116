//! Numbers of every width: edges, infinities, not-numbers, random bits, from every place.

use turmyshge::steps::{ReadCall, ReadStep, TType};

use super::{reads, Share};
use crate::rng::Rng;
use crate::visitor::Visitor;

/// Numbers at the edges of every width, and doubles that are infinite or not numbers.
pub const NUMBERS: [u64; 22] = [
    0,
    1,
    2,
    0x7f,
    0x80,
    0xff,
    0x100,
    0x7fff,
    0x8000,
    0xffff,
    0x7fff_ffff,
    0x8000_0000,
    0xffff_ffff,
    0x0123_4567_89ab_cdef,
    0x7fff_ffff_ffff_ffff,
    0x8000_0000_0000_0000,
    0x7ff0_0000_0000_0000,
    0xfff0_0000_0000_0000,
    0x7ff8_0000_0000_0000,
    0x7ff0_0000_0000_0001,
    0xfff8_0000_0000_0000,
    u64::MAX,
];

/// Shows numbers read as every width, and every other read on the same bytes.
pub fn show(visitor: &mut dyn Visitor, share: &Share) {
    let calls = reads::all();
    for (number, value) in NUMBERS.into_iter().enumerate() {
        if share.takes(number) {
            show_places(
                visitor,
                &calls,
                &[value.to_be_bytes(), value.to_le_bytes()].concat(),
            );
        }
    }
    for round in (0..3_000).filter(|round| share.takes(*round)) {
        let mut rng = Rng::new(share.seed, round as u64);
        let bytes = [rng.bits().to_be_bytes(), rng.bits().to_be_bytes()].concat();
        show_places(visitor, &calls, &bytes);
        let mut nan = bytes;
        nan[0] |= 0x7f;
        nan[1] |= 0xf0;
        visitor.read(&ReadCall::new(ReadStep::Double, &nan, 0));
        visitor.read(&ReadCall::new(ReadStep::Scalar, &nan, 0).of(TType::Double));
    }
}

/// Every read from every place, and from just beyond the end.
fn show_places(visitor: &mut dyn Visitor, calls: &[ReadCall<'_>], bytes: &[u8]) {
    for call in calls {
        for place in 0..=bytes.len() + 1 {
            visitor.read(&ReadCall {
                bytes,
                place,
                ..*call
            });
        }
    }
}
