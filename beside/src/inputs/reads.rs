//! The reads that every string of bytes is tried with.

use turmyshge::steps::{ReadCall, ReadStep, StepType};
use turmyshge::TType;

/// The skip depth under which short strings are tried: two levels of nesting, and their end.
const SHALLOW: usize = 3;

/// Reads of every step under default limits, for every type where a step takes one, and both kinds of message header.
pub fn all() -> Vec<ReadCall<'static>> {
    let mut calls = Vec::new();
    for step in ReadStep::ALL {
        let call = ReadCall {
            depth: SHALLOW,
            ..ReadCall::new(step, &[], 0)
        };
        match step {
            // these look at no byte, and have inputs of their own
            ReadStep::StructBegin | ReadStep::StructEnd | ReadStep::Limits => {}
            ReadStep::MessageBegin => {
                calls.extend([true, false].map(|strict| ReadCall { strict, ..call }));
            }
            ReadStep::Skip | ReadStep::Scalar => {
                calls.extend(StepType::ALL.map(|kind| call.of(kind)));
            }
            _ => calls.push(call),
        }
    }
    calls
}

/// The skip of every type at a depth.
pub fn skips(depth: usize) -> [ReadCall<'static>; StepType::ALL.len()] {
    StepType::ALL.map(|kind| ReadCall {
        depth,
        ..ReadCall::new(ReadStep::Skip, &[], 0).of(kind)
    })
}

/// All of them, and the steps that look at no byte: a struct's begin, its end with none and one open, the limits.
pub fn every() -> Vec<ReadCall<'static>> {
    let bare = |step| ReadCall::new(step, &[], 0);
    let end_of_one = ReadCall {
        struct_depth: 1,
        ..bare(ReadStep::StructEnd)
    };
    let steps = [ReadStep::StructBegin, ReadStep::StructEnd, ReadStep::Limits];
    let mut calls = all();
    calls.extend(steps.map(bare));
    calls.push(end_of_one);
    calls
}

/// Those whose answer the bytes decide, and those for which only their number counts.
pub fn by_bytes() -> (Vec<ReadCall<'static>>, Vec<ReadCall<'static>>) {
    every().into_iter().partition(looks_at_bytes)
}

fn looks_at_bytes(call: &ReadCall<'_>) -> bool {
    match call.step {
        ReadStep::Skip => !matches!(call.kind.wire(), None | Some(TType::Stop | TType::Void)),
        ReadStep::Scalar => SCALARS.iter().any(|kind| call.kind == *kind),
        ReadStep::StructBegin | ReadStep::StructEnd | ReadStep::Limits => false,
        step => !ENDS.contains(&step),
    }
}

const SCALARS: [TType; 6] = [
    TType::Bool,
    TType::I08,
    TType::I16,
    TType::I32,
    TType::I64,
    TType::Double,
];

const ENDS: [ReadStep; 5] = [
    ReadStep::MessageEnd,
    ReadStep::FieldEnd,
    ReadStep::ListEnd,
    ReadStep::SetEnd,
    ReadStep::MapEnd,
];
