//! Random trees and messages: written by both sides, then read and skipped whole and damaged.

use turmyshge::steps::{MessageType, ReadCall, ReadStep, StepType, WriteCall, WriteStep};
use turmyshge::{Limits, TType};

use super::damage::{damaged, Damage};
use super::tree::{grow, Growth, Tree};
use super::Share;
use crate::plain::Plain;
use crate::port::Port;
use crate::published;
use crate::rng::Rng;
use crate::visitor::Visitor;

/// Damaged copies of each kind that are made of each value.
const COPIES: usize = 6;

/// Shows random values.
pub fn show(visitor: &mut dyn Visitor, share: &Share) {
    for round in 0..share.rounds {
        if share.takes(round as usize) {
            show_usual(visitor, &mut Rng::new(share.seed, round));
        }
    }
}

/// Shows random values that are very deep or very wide, one for ten of the others.
pub fn show_far(visitor: &mut dyn Visitor, share: &Share) {
    for round in 0..share.rounds.div_ceil(10) {
        if share.takes(round as usize) {
            let rng = &mut Rng::new(share.seed, FAR + round);
            if rng.once_in(2) {
                show_deep(visitor, rng);
            } else {
                let tree = grow(rng, Growth::wide());
                show_tree(visitor, &tree, rng);
            }
        }
    }
}

/// Where the random numbers for the deep and wide ones begin.
const FAR: u64 = 1 << 40;

fn show_usual(visitor: &mut dyn Visitor, rng: &mut Rng) {
    let levels = if rng.once_in(8) {
        127
    } else {
        1 + rng.below(8)
    };
    let size = 1 + rng.below(60);
    let tree = grow(rng, Growth::usual(size, levels));
    show_tree(visitor, &tree, rng);
}

/// A value as deep as a skip may go, or nearly, or a little deeper. With no limit on structs it is passed.
fn show_deep(visitor: &mut dyn Visitor, rng: &mut Rng) {
    let line: &[TType] = rng.pick(&LINES);
    let levels = rng.pick(&[100, 125, 126, 127, 127, 128, 129]);
    let tree = grow(rng, Growth::deep(levels, line));
    show_tree(visitor, &tree, rng);
    let bytes = published::written(&tree.calls());
    for depth in levels - 2..=levels + 1 {
        show_unlimited(visitor, tree.kind, &bytes, depth);
    }
    for how in Damage::ALL {
        show_unlimited(visitor, tree.kind, &damaged(&bytes, how, rng), 127);
    }
}

fn show_unlimited(visitor: &mut dyn Visitor, kind: TType, bytes: &[u8], depth: usize) {
    let call = ReadCall {
        depth,
        ..ReadCall::new(ReadStep::Skip, bytes, 0).of(kind)
    };
    visitor.read(&call.under(Limits::NONE));
}

/// What a deep value nests: anything, or structs to beyond their limit.
const LINES: [&[TType]; 3] = [
    &[TType::Struct, TType::List, TType::Set, TType::Map],
    &[TType::Struct, TType::Struct, TType::List],
    &[TType::Struct],
];

/// A value written, read, skipped, and put behind a message header; then damaged.
fn show_tree(visitor: &mut dyn Visitor, tree: &Tree, rng: &mut Rng) {
    show_writes(visitor, tree);
    let calls = tree.calls();
    let bytes = published::written(&calls);
    // the port writes the same, by one writer from the first byte to the last
    visitor.writes(&calls, bytes.len());
    show_skips(visitor, tree, &bytes, rng);
    show_walk(visitor, tree, &bytes);
    show_message(visitor, tree, &bytes, rng);
    for _ in 0..COPIES {
        for how in Damage::ALL {
            let copy = damaged(&bytes, how, rng);
            show_skips(visitor, tree, &copy, rng);
            show_walk(visitor, tree, &copy);
        }
    }
}

/// Every write of the tree, each by a fresh writer.
fn show_writes(visitor: &mut dyn Visitor, tree: &Tree) {
    for write in tree.writes.iter().filter(|write| write.puts_bytes()) {
        let call = write.call(0);
        visitor.write(&call, call.text.len() + 16);
    }
}

/// Skips of the bytes at depths around the tree's own, under the default limits and random ones.
fn show_skips(visitor: &mut dyn Visitor, tree: &Tree, bytes: &[u8], rng: &mut Rng) {
    let own = tree.levels;
    for depth in [own.saturating_sub(1), own, (own + 1).min(127), 127] {
        let call = ReadCall {
            depth,
            ..ReadCall::new(ReadStep::Skip, bytes, 0).of(tree.kind)
        };
        visitor.read(&call);
    }
    let limits = random_limits(rng);
    let call = ReadCall {
        depth: rng.below(128),
        struct_depth: rng.below(limits.structs.unwrap_or(3).min(3) + 1),
        ..ReadCall::new(ReadStep::Skip, bytes, 0)
            .of(tree.kind)
            .under(limits)
    };
    visitor.read(&call);
    // somewhere inside, as any other type
    let place = rng.below(bytes.len() + 1);
    let kind = rng.pick(&StepType::ALL);
    visitor.read(&ReadCall::new(ReadStep::Skip, bytes, place).of(kind));
}

/// A struct read as its user reads it: field after field, each value read if it is a scalar and passed in any case.
fn show_walk(visitor: &mut dyn Visitor, tree: &Tree, bytes: &[u8]) {
    if tree.kind != TType::Struct {
        return;
    }
    let mut at = 0;
    loop {
        let field = ReadCall::new(ReadStep::FieldBegin, bytes, at);
        visitor.read(&field);
        let kind = match next(&field) {
            Some((byte, end)) if byte != 0 => {
                at = end;
                TType::from_byte(byte as u8).expect("a field that was read has a type")
            }
            _ => return,
        };
        visitor.read(&ReadCall::new(ReadStep::Scalar, bytes, at).of(kind));
        let value = ReadCall::new(ReadStep::Skip, bytes, at).of(kind);
        visitor.read(&value);
        match next(&value) {
            Some((_, end)) => at = end,
            None => return,
        }
    }
}

/// An accepted read's first value and end.
fn next(call: &ReadCall<'_>) -> Option<(u64, usize)> {
    let answer = Plain.read(call)?;
    answer
        .refusal
        .is_none()
        .then_some((answer.values[0], answer.place))
}

/// Limits small enough to be met, or none.
pub fn random_limits(rng: &mut Rng) -> Limits {
    let mut limit = |most| (!rng.once_in(3)).then(|| rng.below(most));
    Limits {
        message: limit(64),
        frame: None,
        structs: limit(8),
        container: limit(6),
        string: limit(16),
    }
}

/// A message header before the bytes, whole and damaged.
fn show_message(visitor: &mut dyn Visitor, tree: &Tree, bytes: &[u8], rng: &mut Rng) {
    let name: Vec<u8> = (0..rng.below(10))
        .map(|_| b'a' + rng.below(26) as u8)
        .collect();
    let strict = rng.once_in(2);
    let call = WriteCall {
        text: &name,
        strict,
        message: rng.pick(&MessageType::ALL),
        number: rng.bits() & 0xffff_ffff,
        ..WriteCall::new(WriteStep::MessageBegin, 0)
    };
    visitor.write(&call, name.len() + 12);
    let header = published::written(&[call]);
    let message = [&header, bytes].concat();
    show_header(visitor, &message);
    visitor.read(&ReadCall::new(ReadStep::Skip, &message, header.len()).of(tree.kind));
    for how in Damage::ALL {
        show_header(visitor, &damaged(&header, how, rng));
    }
}

fn show_header(visitor: &mut dyn Visitor, bytes: &[u8]) {
    for strict in [false, true] {
        let call = ReadCall {
            strict,
            ..ReadCall::new(ReadStep::MessageBegin, bytes, 0)
        };
        visitor.read(&call);
    }
}
