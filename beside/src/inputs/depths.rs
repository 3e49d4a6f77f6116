//! Skip depths from 0 to 127, struct depths around their limits, and values nested as deep.

use turmyshge::steps::{Limits, ReadCall, ReadStep, TType, WriteCall, WriteStep};

use super::Share;
use crate::visitor::Visitor;

/// What one level of nesting opens with and closes with.
struct Level {
    kind: TType,
    open: &'static [u8],
    close: &'static [u8],
}

const LEVELS: [Level; 4] = [
    Level {
        kind: TType::Struct,
        open: &[0x0c, 0, 1],
        close: &[0],
    },
    Level {
        kind: TType::List,
        open: &[0x0f, 0, 0, 0, 1],
        close: &[],
    },
    Level {
        kind: TType::Set,
        open: &[0x0e, 0, 0, 0, 1],
        close: &[],
    },
    Level {
        kind: TType::Map,
        open: &[0x02, 0x0d, 0, 0, 0, 1, 1],
        close: &[],
    },
];

/// Shows every depth.
pub fn show(visitor: &mut dyn Visitor, share: &Share) {
    for nested in (0..=130_usize).filter(|n| share.takes(*n)) {
        for level in &LEVELS {
            show_nested(visitor, level, nested);
        }
    }
    if share.takes(0) {
        show_struct_steps(visitor);
        show_far_structs(visitor);
    }
}

/// A value of `nested` levels around an empty one of the same kind.
fn nest(level: &Level, nested: usize) -> Vec<u8> {
    let innermost: &[u8] = match level.kind {
        TType::Struct => &[0],
        TType::Map => &[2, 2, 0, 0, 0, 0],
        _ => &[3, 0, 0, 0, 0],
    };
    [
        &level.open.repeat(nested),
        innermost,
        &level.close.repeat(nested),
    ]
    .concat()
}

fn show_nested(visitor: &mut dyn Visitor, level: &Level, nested: usize) {
    let bytes = nest(level, nested);
    let structs = [
        None,
        Some(64),
        Some(nested),
        Some(nested + 1),
        Some(nested + 2),
    ];
    for limit in structs {
        let limits = Limits {
            structs: limit,
            ..Limits::DEFAULT
        };
        for depth in (0..=130_usize).filter(|d| *d < 3 || *d > 126 || d.abs_diff(nested + 1) < 3) {
            for struct_depth in [0, 1, 2] {
                if limit.is_some_and(|limit| struct_depth > limit) {
                    continue;
                }
                let call = ReadCall {
                    depth,
                    struct_depth,
                    ..ReadCall::new(ReadStep::Skip, &bytes, 0)
                        .of(level.kind)
                        .under(limits)
                };
                visitor.read(&call);
            }
        }
    }
}

/// Struct begins and ends, read and written, at every depth up to some, and around the most.
fn show_struct_steps(visitor: &mut dyn Visitor) {
    let near = 65_533..65_539;
    for struct_depth in (0..70).chain(near).chain([usize::MAX]) {
        for structs in [None, Some(0), Some(1), Some(64), Some(65_535), Some(65_536)] {
            let limits = Limits {
                structs,
                ..Limits::DEFAULT
            };
            for step in [ReadStep::StructBegin, ReadStep::StructEnd] {
                let call = ReadCall {
                    struct_depth,
                    ..ReadCall::new(step, &[1, 2], 1).under(limits)
                };
                visitor.read(&call);
            }
            for step in [WriteStep::StructBegin, WriteStep::StructEnd] {
                let call = WriteCall {
                    struct_depth,
                    structs,
                    ..WriteCall::new(step, 1)
                };
                visitor.write(&call, 2);
            }
        }
    }
}

/// Skips that start with nearly all structs open.
fn show_far_structs(visitor: &mut dyn Visitor) {
    for nested in 0..4 {
        let bytes = nest(&LEVELS[0], nested);
        for struct_depth in 65_530..=65_536 {
            let call = ReadCall {
                struct_depth,
                ..ReadCall::new(ReadStep::Skip, &bytes, 0)
                    .of(TType::Struct)
                    .under(Limits::NONE)
            };
            visitor.read(&call);
        }
    }
}
