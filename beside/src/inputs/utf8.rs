//! Texts: all of 1, 2 and 3 bytes, and those of 4 whose bytes stand at the edges of RFC 3629's ranges.

use turmyshge::steps::{ReadCall, ReadStep, WriteCall, WriteStep};
use turmyshge::TType;

use super::short::strings;
use super::Share;
use crate::visitor::Visitor;

/// Edges of the ranges that a second byte may be held to.
const SECOND: [u8; 10] = [0x00, 0x7f, 0x80, 0x8f, 0x90, 0x9f, 0xa0, 0xbf, 0xc0, 0xff];
/// Edges of a continuation byte's range.
const LATER: [u8; 6] = [0x00, 0x7f, 0x80, 0xbf, 0xc0, 0xff];

/// Shows texts as strings; the shorter ones also as names and to the writers.
pub fn show(visitor: &mut dyn Visitor, share: &Share) {
    let bytes: Vec<u8> = (0..=255).collect();
    strings(&bytes, 3, share, &mut |text| {
        show_string(visitor, text);
        if text.len() < 3 {
            show_elsewhere(visitor, text);
        }
    });
    for lead in (0..=255).filter(|lead| share.takes(usize::from(*lead))) {
        for second in SECOND {
            for third in LATER {
                for fourth in LATER {
                    let text = [lead, second, third, fourth];
                    show_string(visitor, &text);
                    show_elsewhere(visitor, &text);
                    show_string(visitor, &[b'a', lead, second, third, fourth, b'z']);
                }
            }
        }
    }
}

fn show_string(visitor: &mut dyn Visitor, text: &[u8]) {
    let mut buffer = [0; 16];
    let end = 4 + text.len();
    buffer[3] = text.len() as u8;
    buffer[4..end].copy_from_slice(text);
    visitor.read(&ReadCall::new(ReadStep::String, &buffer[..end], 0));
}

/// The text as the name in both kinds of message header, and written as a string and as a name.
fn show_elsewhere(visitor: &mut dyn Visitor, text: &[u8]) {
    let length = (text.len() as u32).to_be_bytes();
    let strict = [&[0x80, 0x01, 0, 1][..], &length, text, &[0, 0, 0, 7]].concat();
    let legacy = [&length[..], text, &[1, 0, 0, 0, 7]].concat();
    for bytes in [&strict, &legacy] {
        let call = ReadCall {
            strict: false,
            ..ReadCall::new(ReadStep::MessageBegin, bytes, 0)
        };
        visitor.read(&call);
    }
    for step in [WriteStep::String, WriteStep::MessageBegin] {
        let call = WriteCall {
            text,
            kind: TType::Void.into(),
            ..WriteCall::new(step, 1)
        };
        visitor.write(&call, 32);
    }
}
