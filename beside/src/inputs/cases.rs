//! The cases that the rules write down, W1 to W12 and two pairs.

use turmyshge::steps::{Answer, ReadCall, ReadStep, TType, WriteCall, WriteStep};
use turmyshge::Kind;

use super::Share;
use crate::port::skip_refused;
use crate::visitor::Visitor;

const STRICT: [u8; 14] = [0x80, 0x01, 0x00, 0x01, 0, 0, 0, 2, 0x61, 0x62, 0, 0, 0, 7];
const LEGACY: [u8; 11] = [0, 0, 0, 2, 0x61, 0x62, 0x01, 0, 0, 0, 7];
const TWO_BYTES: [u8; 7] = [0x03, 0, 0, 0, 2, 5, 6];

/// Shows them all; there are too few to share out.
pub fn show(visitor: &mut dyn Visitor, share: &Share) {
    if share.takes(0) {
        show_messages(visitor);
        show_skips(visitor);
        show_written(visitor);
        show_pairs(visitor);
    }
}

fn show_messages(visitor: &mut dyn Visitor) {
    let strict = ReadCall::new(ReadStep::MessageBegin, &STRICT, 0);
    visitor.expect_read(&strict, Answer::accepted(14, [8, 10, 1, 7]));
    let legacy = ReadCall {
        strict: false,
        ..ReadCall::new(ReadStep::MessageBegin, &LEGACY, 0)
    };
    visitor.expect_read(&legacy, Answer::accepted(11, [4, 6, 1, 7]));
    let unversioned = ReadCall::new(ReadStep::MessageBegin, &LEGACY, 0);
    visitor.expect_read(&unversioned, Answer::refused(Kind::BadVersion, 0));
}

fn show_skips(visitor: &mut dyn Visitor) {
    let passed = |end, count| Answer::accepted(end, [count, 0, 0, 0]);
    let cases: [(TType, &[u8], usize, Answer); 8] = [
        (TType::Bool, &[2], 1, passed(1, 1)),
        (TType::Bool, &[2], 0, skip_refused(Kind::SkipDepth, 0, 1)),
        (TType::List, &TWO_BYTES, 2, passed(7, 3)),
        (
            TType::List,
            &TWO_BYTES,
            1,
            skip_refused(Kind::SkipDepth, 5, 2),
        ),
        (TType::List, &[1, 0, 0, 0, 0], 1, passed(5, 1)),
        (
            TType::List,
            &[1, 0, 0, 0, 1],
            2,
            skip_refused(Kind::WrongType, 5, 2),
        ),
        (TType::Struct, &[8, 0, 1, 0, 0, 0, 9, 0], 2, passed(8, 2)),
        (
            TType::String,
            &[0xff; 4],
            1,
            skip_refused(Kind::NegativeSize, 0, 1),
        ),
    ];
    for (kind, bytes, depth, answer) in cases {
        let call = ReadCall {
            depth,
            ..ReadCall::new(ReadStep::Skip, bytes, 0).of(kind)
        };
        visitor.expect_read(&call, answer);
    }
}

fn show_written(visitor: &mut dyn Visitor) {
    let empty_frame = ReadCall::new(ReadStep::Frame, &[0; 4], 0);
    visitor.expect_read(&empty_frame, Answer::accepted(4, [1, 4, 4, 0]));
    let stop_with_id = WriteCall {
        number: 5,
        ..WriteCall::new(WriteStep::FieldBegin, 0)
    };
    visitor.expect_write(&stop_with_id, 4, &[0, 0, 5]);
}

fn show_pairs(visitor: &mut dyn Visitor) {
    let list = |size: u32| [&[0x0a][..], &size.to_be_bytes()].concat();
    let (fits, above) = (list(13_107_200), list(13_107_201));
    let header = |bytes| ReadCall::new(ReadStep::ListBegin, bytes, 0);
    visitor.expect_read(
        &header(&fits),
        Answer::accepted(5, [0x0a, 13_107_200, 0, 0]),
    );
    visitor.expect_read(&header(&above), Answer::refused(Kind::MessageLimit, 1));

    let mut frame = 16_384_000_u32.to_be_bytes().to_vec();
    frame.resize(16_384_004, 0x55);
    let whole = ReadCall::new(ReadStep::Frame, &frame, 0);
    visitor.expect_read(&whole, Answer::accepted(16_384_004, [1, 4, 16_384_004, 0]));
    let above = 16_384_001_u32.to_be_bytes();
    let above = ReadCall::new(ReadStep::Frame, &above, 0);
    visitor.expect_read(&above, Answer::refused(Kind::FrameLimit, 0));
}
