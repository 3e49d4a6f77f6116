//! Every limit with sizes at, below and above it.

use turmyshge::steps::{Limits, ReadCall, ReadStep, TType};

use super::Share;
use crate::visitor::Visitor;

/// Limits to stand next to; the last ones can't be exceeded by any size.
const EDGES: [Option<usize>; 16] = [
    Some(0),
    Some(1),
    Some(2),
    Some(3),
    Some(16),
    Some(255),
    Some(256),
    Some(257),
    Some(65_535),
    Some(13_107_200),
    Some(104_857_600),
    Some(0x7fff_fffe),
    Some(0x7fff_ffff),
    Some(0x8000_0000),
    Some(usize::MAX - 1),
    None,
];

/// Bodies up to this long are written out as well as left away.
const WRITTEN_OUT: usize = 300;

/// Sizes around `edge`, the signs' edge and 0, as they stand in four bytes.
fn sizes(edge: usize) -> Vec<u32> {
    let near = [edge.wrapping_sub(1), edge, edge.wrapping_add(1)];
    let mut sizes: Vec<u32> = near
        .iter()
        .filter_map(|size| u32::try_from(*size).ok())
        .collect();
    sizes.extend([0, 1, 0x7fff_ffff, 0x8000_0000, 0xffff_ffff]);
    sizes
}

/// Shows every limit.
pub fn show(visitor: &mut dyn Visitor, share: &Share) {
    for (number, edge) in EDGES.into_iter().enumerate() {
        if share.takes(number) {
            show_string_limit(visitor, edge);
            show_container_limit(visitor, edge);
            show_message_limit(visitor, edge);
            show_build(visitor, edge);
        }
    }
}

fn show_string_limit(visitor: &mut dyn Visitor, string: Option<usize>) {
    let limits = Limits {
        string,
        ..Limits::DEFAULT
    };
    for size in sizes(string.unwrap_or(0)) {
        for body in [0, 1, size as usize, size as usize + 1] {
            if body > WRITTEN_OUT {
                continue;
            }
            let text = [&size.to_be_bytes()[..], &vec![0x61; body]].concat();
            let message = [&[0x80, 0x01, 0x00, 0x02][..], &text, &[0, 0, 0, 9]].concat();
            let legacy = [&text[..], &[4, 0, 0, 0, 9]].concat();
            for step in [ReadStep::Bytes, ReadStep::String, ReadStep::Skip] {
                visitor.read(
                    &ReadCall::new(step, &text, 0)
                        .under(limits)
                        .of(TType::String),
                );
            }
            for bytes in [&message, &legacy] {
                let call = ReadCall {
                    strict: false,
                    ..ReadCall::new(ReadStep::MessageBegin, bytes, 0).under(limits)
                };
                visitor.read(&call);
            }
        }
    }
}

fn show_container_limit(visitor: &mut dyn Visitor, container: Option<usize>) {
    for message in [None, Limits::DEFAULT.message] {
        let limits = Limits {
            container,
            message,
            ..Limits::DEFAULT
        };
        for size in sizes(container.unwrap_or(0)) {
            show_headers(visitor, limits, size);
        }
    }
}

fn show_message_limit(visitor: &mut dyn Visitor, message: Option<usize>) {
    let limits = Limits {
        message,
        ..Limits::DEFAULT
    };
    let most = message.unwrap_or(usize::MAX);
    for off in [-1, 0, 1] {
        // the least bytes of an element are 1, 2, 4, 8 or 16, and sums of two of these
        for least in [1, 2, 3, 4, 5, 6, 8, 9, 10, 12, 16, 17, 18, 20, 24, 32] {
            let size = (most / least) as i64 + off;
            show_headers(visitor, limits, size.clamp(-1, 0x7fff_ffff) as u32);
        }
    }
}

/// Lists, sets and maps of every type and pair of types.
fn show_headers(visitor: &mut dyn Visitor, limits: Limits, size: u32) {
    let size = size.to_be_bytes();
    for kind in TType::ALL {
        let list = [&[kind.byte()][..], &size].concat();
        for (step, kind) in [
            (ReadStep::ListBegin, TType::List),
            (ReadStep::SetBegin, TType::Set),
            (ReadStep::Skip, TType::List),
            (ReadStep::Skip, TType::Set),
        ] {
            visitor.read(&ReadCall::new(step, &list, 0).under(limits).of(kind));
        }
        for value in TType::ALL {
            let map = [&[kind.byte(), value.byte()][..], &size].concat();
            for step in [ReadStep::MapBegin, ReadStep::Skip] {
                visitor.read(&ReadCall::new(step, &map, 0).under(limits).of(TType::Map));
            }
        }
    }
}

/// The limits held against each other.
fn show_build(visitor: &mut dyn Visitor, frame: Option<usize>) {
    for message in EDGES {
        let limits = Limits {
            frame,
            message,
            ..Limits::DEFAULT
        };
        visitor.read(&ReadCall::new(ReadStep::Limits, &[], 0).under(limits));
    }
}
