//! The rules once more, in ordinary index-checked Rust: a second opinion, and what the benchmark is held against.

mod frame;
mod header;
mod number;
mod skip;
mod text;
mod write;

use turmyshge::steps::{Answer, ReadCall, ReadStep, StepRefusal, WriteCall};
use turmyshge::{Kind, Limits, Skip, TType};

use crate::port::{skip_refused, Port};
pub use number::NAN;

/// The deepest skip.
const DEEPEST: usize = 127;
/// The most structs that may be open, whatever the limit.
const MOST_STRUCTS: usize = 65_535;

/// Some values and the place after them.
type Read<T> = Result<(T, usize), StepRefusal>;

fn refuse<T>(kind: Kind, place: usize) -> Result<T, StepRefusal> {
    Err(StepRefusal { kind, place })
}

/// The plain implementation.
pub struct Plain;

impl Port for Plain {
    fn name(&self) -> &'static str {
        "plain"
    }

    fn read(&self, call: &ReadCall<'_>) -> Option<Answer> {
        Some(read(call))
    }

    fn write(&self, call: &WriteCall<'_>, out: &mut [u8]) -> Option<Answer> {
        Some(match write::write(call, out) {
            Ok((value, end)) => Answer::accepted(end, [value, 0, 0, 0]),
            Err(refused) => Answer::refused(refused.kind, refused.place),
        })
    }

    fn skip(&self, bytes: &[u8], place: usize, type_byte: u8, how: &Skip) -> Option<Answer> {
        Some(skip_by_byte(bytes, place, type_byte, how))
    }
}

/// What the desk's calls answer.
pub fn skip_by_byte(bytes: &[u8], place: usize, type_byte: u8, how: &Skip) -> Answer {
    if place > bytes.len() {
        return skip_refused(Kind::StartBeyond, place, 0);
    }
    if how.depth > DEEPEST || how.struct_depth > MOST_STRUCTS {
        return skip_refused(Kind::DepthBeyond, place, 0);
    }
    match TType::from_byte(type_byte) {
        Some(kind) => skip::skip(bytes, place, kind.into(), how),
        None => skip_refused(Kind::UnknownType, place, 0),
    }
}

/// Makes a read: where it may start and how deep it may be, then the step itself.
fn read(call: &ReadCall<'_>) -> Answer {
    if call.step == ReadStep::Limits {
        return build(&call.limits);
    }
    if call.place > call.bytes.len() {
        return Answer::refused(Kind::StartBeyond, call.place);
    }
    let takes_structs = matches!(
        call.step,
        ReadStep::StructBegin | ReadStep::StructEnd | ReadStep::Skip
    );
    let too_deep = (call.step == ReadStep::Skip && call.depth > DEEPEST)
        || (takes_structs && call.struct_depth > MOST_STRUCTS);
    if too_deep {
        return Answer::refused(Kind::DepthBeyond, call.place);
    }
    if call.step == ReadStep::Skip {
        let how = Skip {
            depth: call.depth,
            struct_depth: call.struct_depth,
            limits: call.limits,
        };
        return skip::skip(call.bytes, call.place, call.kind, &how);
    }
    match step(call) {
        Ok((values, end)) => Answer::accepted(end, values),
        Err(refused) => Answer::refused(refused.kind, refused.place),
    }
}

fn build(limits: &Limits) -> Answer {
    match (limits.frame, limits.message) {
        (Some(frame), Some(message)) if frame > message => {
            Answer::refused(Kind::FrameAboveMessage, 0)
        }
        _ => Answer::accepted(0, [0; 4]),
    }
}

fn step(call: &ReadCall<'_>) -> Read<[u64; 4]> {
    let (bytes, at, limits) = (call.bytes, call.place, &call.limits);
    let one = |(value, end)| ([value, 0, 0, 0], end);
    match call.step {
        ReadStep::Byte | ReadStep::I8 => number::unsigned::<1>(bytes, at).map(one),
        ReadStep::Bool => number::boolean(bytes, at).map(one),
        ReadStep::I16 => number::unsigned::<2>(bytes, at).map(one),
        ReadStep::I32 => number::unsigned::<4>(bytes, at).map(one),
        ReadStep::I64 => number::unsigned::<8>(bytes, at).map(one),
        ReadStep::Double => number::double(bytes, at).map(one),
        ReadStep::Bytes => text::bytes(bytes, at, limits).map(text::values),
        ReadStep::String => text::string(bytes, at, limits).map(text::values),
        ReadStep::Uuid => text::uuid(bytes, at).map(text::values),
        ReadStep::Type => header::type_byte(bytes, at).map(|(k, end)| one((k.byte().into(), end))),
        ReadStep::FieldBegin => header::field(bytes, at),
        ReadStep::ListBegin | ReadStep::SetBegin => header::list_values(bytes, at, limits),
        ReadStep::MapBegin => header::map_values(bytes, at, limits),
        ReadStep::StructBegin => header::struct_begin(at, call.struct_depth, limits.structs)
            .map(|depth| one((depth as u64, at))),
        ReadStep::StructEnd => {
            header::struct_end(at, call.struct_depth).map(|depth| one((depth as u64, at)))
        }
        ReadStep::MessageType => header::message_type(bytes, at).map(one),
        ReadStep::MessageBegin => header::message(bytes, at, call.strict, limits),
        ReadStep::Scalar => number::scalar(bytes, at, call.kind),
        ReadStep::Frame => frame::read(bytes, at, limits.frame),
        _ => Ok(([0; 4], at)),
    }
}
