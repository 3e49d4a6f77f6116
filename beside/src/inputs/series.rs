//! One reader over a whole message, and one writer of it, each from its first call to its first refusal.

use turmyshge::steps::{MessageType, ReadCall, ReadStep, WriteCall, WriteStep};
use turmyshge::{Limits, TType};

use super::damage::{damaged, Damage};
use super::tree::{grow, Growth};
use super::trees::random_limits;
use super::Share;
use crate::plain::Plain;
use crate::port::Port;
use crate::published;
use crate::rng::Rng;
use crate::state::State;
use crate::visitor::Visitor;

/// Where this section's random numbers begin.
const STREAM: u64 = 2 << 40;
/// Damaged copies of each kind that are made of each message.
const COPIES: usize = 3;

/// Shows a message for four random trees of the other sections.
pub fn show(visitor: &mut dyn Visitor, share: &Share) {
    for round in 0..share.rounds.div_ceil(4) {
        if share.takes(round as usize) {
            show_message(visitor, &mut Rng::new(share.seed, STREAM + round));
        }
    }
}

fn show_message(visitor: &mut dyn Visitor, rng: &mut Rng) {
    let growth = match rng.below(16) {
        0 => Growth::deep(70, &[TType::Struct]),
        1 => Growth::wide(),
        _ => Growth::usual(1 + rng.below(60), 1 + rng.below(8)),
    };
    let tree = grow(rng, growth);
    let strict = rng.once_in(2);
    let begin = WriteCall {
        text: b"placeOrder",
        message: rng.pick(&MessageType::ALL),
        number: rng.bits() & 0xffff_ffff,
        ..WriteCall::new(WriteStep::MessageBegin, 0)
    };
    let end = WriteCall::new(WriteStep::MessageEnd, 0);
    let mut calls = vec![begin];
    calls.extend(tree.calls());
    calls.push(end);
    calls.iter_mut().for_each(|call| call.strict = strict);

    let bytes = published::written(&calls);
    show_writes(visitor, &mut calls, bytes.len(), rng);
    show_reads(visitor, tree.kind, &bytes, rng);
    for _ in 0..COPIES {
        for how in Damage::ALL {
            show_reads(visitor, tree.kind, &damaged(&bytes, how, rng), rng);
        }
    }
}

/// The message written with room for all of it, for more and for less, with and without a limit on structs.
fn show_writes(
    visitor: &mut dyn Visitor,
    calls: &mut [WriteCall<'_>],
    length: usize,
    rng: &mut Rng,
) {
    let place = rng.below(4);
    let rooms = [length, length + 9, rng.below(length)];
    for structs in [None, Some(64), Some(rng.below(4))] {
        for call in calls.iter_mut() {
            call.place = place;
            call.structs = structs;
        }
        for room in rooms {
            visitor.writes(calls, place + room);
        }
    }
}

/// The message read under the default limits, none and random ones.
fn show_reads(visitor: &mut dyn Visitor, kind: TType, bytes: &[u8], rng: &mut Rng) {
    for limits in [Limits::DEFAULT, Limits::NONE, random_limits(rng)] {
        let mut user = User {
            bytes,
            limits,
            strict: rng.once_in(4),
            state: State::fresh(0),
            calls: Vec::new(),
            rng,
        };
        user.message(kind);
        visitor.reads(&user.calls);
    }
}

/// One who reads a message as its bytes call for, and writes the reads down. It goes by the second opinion's answers;
/// where another answers otherwise the series ends, as a difference.
struct User<'a, 'r> {
    bytes: &'a [u8],
    limits: Limits,
    strict: bool,
    state: State,
    calls: Vec<ReadCall<'a>>,
    rng: &'r mut Rng,
}

/// None once a read was refused.
type Went = Option<()>;

impl User<'_, '_> {
    fn read(&mut self, step: ReadStep, kind: TType) -> Option<[u64; 4]> {
        let call = ReadCall {
            strict: self.strict,
            ..ReadCall::new(step, self.bytes, 0)
        };
        let call = self.state.read(&call.of(kind).under(self.limits));
        self.calls.push(call);
        let answer = Plain.read(&call)?;
        let (values, _) = answer.into_result().ok()?;
        self.state.pass_read(step, &answer);
        Some(values)
    }

    /// A step that is told no type, and whose values don't matter.
    fn pass(&mut self, step: ReadStep) -> Went {
        self.read(step, TType::Stop).map(drop)
    }

    fn message(&mut self, kind: TType) -> Went {
        self.pass(ReadStep::MessageBegin)?;
        self.value(kind)?;
        self.pass(ReadStep::MessageEnd)
    }

    /// A value read part by part, or now and then skipped.
    fn value(&mut self, kind: TType) -> Went {
        if self.rng.once_in(8) {
            return self.read(ReadStep::Skip, kind).map(drop);
        }
        match kind {
            TType::Struct => self.fields(),
            TType::List => self.items(ReadStep::ListBegin, ReadStep::ListEnd),
            TType::Set => self.items(ReadStep::SetBegin, ReadStep::SetEnd),
            TType::Map => self.pairs(),
            _ => self.leaf(kind),
        }
    }

    fn fields(&mut self) -> Went {
        self.pass(ReadStep::StructBegin)?;
        loop {
            let [byte, ..] = self.read(ReadStep::FieldBegin, TType::Stop)?;
            if byte == 0 {
                return self.pass(ReadStep::StructEnd);
            }
            self.value(of_byte(byte))?;
            self.pass(ReadStep::FieldEnd)?;
        }
    }

    fn items(&mut self, begin: ReadStep, end: ReadStep) -> Went {
        let [byte, size, ..] = self.read(begin, TType::Stop)?;
        for _ in 0..size {
            self.value(of_byte(byte))?;
        }
        self.pass(end)
    }

    fn pairs(&mut self) -> Went {
        let [key, value, size, _] = self.read(ReadStep::MapBegin, TType::Stop)?;
        for _ in 0..size {
            self.value(of_byte(key))?;
            self.value(of_byte(value))?;
        }
        self.pass(ReadStep::MapEnd)
    }

    /// A scalar by its own read or by its type, a text mostly as bytes; what can't be read is skipped, which refuses it.
    fn leaf(&mut self, kind: TType) -> Went {
        let own = match kind {
            TType::Bool => ReadStep::Bool,
            TType::I08 => ReadStep::I8,
            TType::I16 => ReadStep::I16,
            TType::I32 => ReadStep::I32,
            TType::I64 => ReadStep::I64,
            TType::Double => ReadStep::Double,
            TType::Uuid => return self.pass(ReadStep::Uuid),
            TType::String if self.rng.once_in(8) => return self.pass(ReadStep::String),
            TType::String => return self.pass(ReadStep::Bytes),
            _ => return self.read(ReadStep::Skip, kind).map(drop),
        };
        let step = if self.rng.once_in(2) {
            own
        } else {
            ReadStep::Scalar
        };
        self.read(step, kind).map(drop)
    }
}

fn of_byte(byte: u64) -> TType {
    TType::from_byte(byte as u8).expect("a header that was read has types")
}
