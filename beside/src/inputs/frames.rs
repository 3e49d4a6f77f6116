//! Frames: lengths around the limit, several in a row, cut ones, other limits.

use turmyshge::steps::{Limits, ReadCall, ReadStep, WriteCall, WriteStep};

use super::Share;
use crate::rng::Rng;
use crate::visitor::Visitor;

/// Shows frames read and written.
pub fn show(visitor: &mut dyn Visitor, share: &Share) {
    if share.takes(0) {
        show_lengths(visitor);
        show_written(visitor);
    }
    for round in (0..200).filter(|round| share.takes(*round)) {
        show_row(visitor, &mut Rng::new(share.seed, round as u64));
    }
}

/// Headers around the limit and the sign, with too few bytes after them.
fn show_lengths(visitor: &mut dyn Visitor) {
    let edges = [
        0, 1, 2, 3, 4, 255, 256, 4_095, 4_096, 4_097, 16_383_999, 16_384_000, 16_384_001,
    ];
    for length in edges
        .into_iter()
        .chain([0x7fff_ffff, 0x8000_0000, 0xffff_ffff_u32])
    {
        for held in [0, 1, 2, 4_096] {
            let mut bytes = length.to_be_bytes().to_vec();
            bytes.resize(4 + held, 0x33);
            visitor.read(&ReadCall::new(ReadStep::Frame, &bytes, 0));
            for frame in [None, Some(0), Some(1), Some(255), Some(16_384_001)] {
                let limits = Limits {
                    frame,
                    ..Limits::DEFAULT
                };
                visitor.read(&ReadCall::new(ReadStep::Frame, &bytes, 0).under(limits));
            }
        }
    }
}

/// Payloads into buffers with too little, just enough and more room.
fn show_written(visitor: &mut dyn Visitor) {
    for length in [0_usize, 1, 2, 7, 255, 256, 5_000] {
        let payload: Vec<u8> = (0..length).map(|i| i as u8).collect();
        for place in [0, 1, 3] {
            let needed = place + length + if length == 0 { 0 } else { 4 };
            for room in [needed.saturating_sub(1), needed, needed + 1, needed + 9] {
                let call = WriteCall {
                    text: &payload,
                    ..WriteCall::new(WriteStep::Frame, place)
                };
                visitor.write(&call, room);
            }
        }
    }
}

/// Several frames in a row, whole and cut, read from each place.
fn show_row(visitor: &mut dyn Visitor, rng: &mut Rng) {
    let mut row = Vec::new();
    for _ in 0..rng.below(4) {
        let length = rng.below(9);
        row.extend((length as u32).to_be_bytes());
        row.extend((0..length).map(|_| rng.bits() as u8));
    }
    row.truncate(row.len() - rng.below(row.len().min(3) + 1));
    for place in 0..=row.len() + 1 {
        visitor.read(&ReadCall::new(ReadStep::Frame, &row, place));
    }
}
