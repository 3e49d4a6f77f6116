//! Every write, into buffers with too little, just enough and more room.

use turmyshge::steps::{Absent, MessageType, StepType, WriteCall, WriteStep};
use turmyshge::TType;

use super::numbers::NUMBERS;
use super::Share;
use crate::rng::Rng;
use crate::visitor::Visitor;

/// The most bytes that any header, number or UUID takes.
const MOST: usize = 17;

/// Shows every write.
pub fn show(visitor: &mut dyn Visitor, share: &Share) {
    for (number, step) in WriteStep::ALL.into_iter().enumerate() {
        if share.takes(number) {
            show_numbers(visitor, step);
        }
    }
    if share.takes(0) {
        show_texts(visitor);
        show_uuids(visitor);
        show_maps(visitor);
        show_too_long(visitor);
    }
    for round in 0..2_000 {
        if share.takes(round) {
            show_random(visitor, &mut Rng::new(share.seed, round as u64));
        }
    }
}

/// Shows a call at some places and with every room that a short output could need.
fn show_rooms(visitor: &mut dyn Visitor, call: &WriteCall<'_>, most: usize) {
    for place in [0, 1, 5] {
        for length in 0..place + most + 2 {
            visitor.write(&WriteCall { place, ..*call }, length);
        }
    }
}

/// A step that is told numbers and types alone, with every type and some numbers.
fn show_numbers(visitor: &mut dyn Visitor, step: WriteStep) {
    if matches!(step, WriteStep::MessageBegin | WriteStep::Uuid) {
        return;
    }
    for number in NUMBERS {
        for (index, kind) in StepType::ALL.into_iter().enumerate() {
            for first in [false, true] {
                let absent = Absent {
                    first: first && step == WriteStep::FieldBegin,
                    second: false,
                };
                let call = WriteCall {
                    kind,
                    other: StepType::ALL[14 - index],
                    number,
                    absent,
                    ..WriteCall::new(step, 0)
                };
                show_rooms(visitor, &call, MOST);
            }
        }
    }
}

fn show_texts(visitor: &mut dyn Visitor) {
    let texts: [&[u8]; 9] = [
        b"",
        b"a",
        b"ab",
        "é".as_bytes(),
        "\u{10ffff}".as_bytes(),
        b"\xff",
        b"\xed\xa0\x80",
        b"\xf4\x90\x80\x80",
        b"a longer name for a call",
    ];
    for text in texts {
        for strict in [false, true] {
            for message in MessageType::ALL {
                for step in [WriteStep::MessageBegin, WriteStep::String, WriteStep::Bytes] {
                    let call = WriteCall {
                        text,
                        strict,
                        message,
                        // no type is asked for; whichever is told is not looked at
                        kind: StepType::ALL[message as usize],
                        number: 0xfffe_fdfc,
                        ..WriteCall::new(step, 0)
                    };
                    show_rooms(visitor, &call, text.len() + 12);
                }
            }
        }
    }
}

fn show_uuids(visitor: &mut dyn Visitor) {
    let uuid: Vec<u8> = (0xf0..=0xff).collect();
    let call = WriteCall {
        text: &uuid,
        ..WriteCall::new(WriteStep::Uuid, 0)
    };
    show_rooms(visitor, &call, MOST);
}

/// Maps with their types there and missing.
fn show_maps(visitor: &mut dyn Visitor) {
    for (first, second) in [(false, true), (true, false), (true, true)] {
        for number in [0, 1, 0xffff_ffff] {
            let call = WriteCall {
                kind: TType::String.into(),
                other: TType::Uuid.into(),
                number,
                absent: Absent { first, second },
                ..WriteCall::new(WriteStep::MapBegin, 0)
            };
            show_rooms(visitor, &call, 6);
        }
    }
}

/// Texts of the longest length and one more. Their bytes are zero and are hardly looked at.
fn show_too_long(visitor: &mut dyn Visitor) {
    let zeros = vec![0; 0x8000_0000];
    let all_sized = [
        WriteStep::Bytes,
        WriteStep::String,
        WriteStep::Frame,
        WriteStep::MessageBegin,
    ];
    for step in all_sized {
        let call = WriteCall {
            text: &zeros,
            ..WriteCall::new(step, 2)
        };
        visitor.write(&call, 20);
    }
    let longest = WriteCall {
        text: &zeros[1..],
        ..WriteCall::new(WriteStep::Bytes, 2)
    };
    visitor.write(&longest, 20);
}

/// Random bits for a random step, with random room.
fn show_random(visitor: &mut dyn Visitor, rng: &mut Rng) {
    for step in WriteStep::ALL {
        let text: Vec<u8> = (0..rng.below(40))
            .map(|_| b' ' + rng.below(95) as u8)
            .collect();
        let uuid: Vec<u8> = (0..16).map(|_| rng.bits() as u8).collect();
        let strict = rng.once_in(2);
        let mut told = WriteCall::new(step, 0);
        if step == WriteStep::MessageBegin {
            told.message = rng.pick(&MessageType::ALL);
        } else {
            told.kind = rng.pick(&StepType::ALL);
        }
        let call = WriteCall {
            text: if step == WriteStep::Uuid {
                &uuid
            } else {
                &text
            },
            strict,
            other: rng.pick(&StepType::ALL),
            number: rng.bits() >> rng.below(64),
            place: rng.below(70),
            ..told
        };
        visitor.write(&call, rng.below(140));
    }
}
