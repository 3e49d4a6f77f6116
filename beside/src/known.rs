//! Where the crate and the port are known to differ. Each difference has a name and says exactly what both sides must
//! have answered; anything else fails the run. `docs/DIFFERENCES.md` gives the reasons.

use turmyshge::steps::{Answer, Limits, ReadCall, ReadStep, TType, WriteCall, WriteStep};
use turmyshge::Kind;

use crate::plain::{Plain, NAN};
use crate::port::Port;
use crate::published::{self, Theirs};

macro_rules! known {
    ($($name:ident, $words:literal;)*) => {
        /// A known difference.
        #[derive(Clone, Copy, Debug, PartialEq, Eq)]
        pub enum Known {
            $(#[doc = $words] $name,)*
        }

        impl Known {
            /// Every known difference.
            pub const ALL: &'static [Known] = &[$(Known::$name,)*];

            /// What it is, in words.
            pub fn words(self) -> &'static str {
                match self {
                    $(Known::$name => $words,)*
                }
            }
        }
    };
}

known! {
    StartBeyond, "a start beyond the buffer: the crate has no places; 2";
    SkipDepthBeyond, "a skip depth above 127: the crate's depth is an i8; 20";
    StructDepthBeyond, "a struct depth above 65,535: the crate has no such check; 20";
    DepthAboveLimit, "a struct depth above its limit: no fresh reader of the crate gets there";
    StructCap, "a struct begin at depth 65,535: the crate goes on; 11";
    StructEndWithNoneOpen, "a struct end with none open: the release crate wraps; 14";
    NoScalarKind, "a scalar read of another type: the crate has no such call; 12";
    NanRead, "a NaN read as a float: the crate keeps its payload; one NaN";
    NanWritten, "a NaN written: the crate writes its payload; one NaN";
    FrameEnd, "a frame read with no byte left: the crate's end of file; End";
    FramedLimits, "a frame limit: the crate's framed reader always has the default";
    UnknownTypeAtHost, "a skip by an unknown type byte: the crate has no such call; 5";
    MapTypeMissing, "a map type missing: the crate panics, or first meets the room; 17";
    TextNotUtf8, "a text to write that is not UTF-8: the crate takes str alone; 13";
    FramedWriterFull, "a frame written to a full buffer: the crate never returns; 15";
    LengthWraps, "a text to write above 31 bits: the crate wraps its length; 16";
    PartialBytes, "a refused write: the crate leaves partial bytes, the port none";
}

const MOST_STRUCTS: usize = 65_535;

fn is(ours: &Answer, refusal: Kind, place: usize) -> bool {
    *ours == Answer::refused(refusal, place)
}

/// The difference that explains two unlike answers to a read.
pub fn of_read(call: &ReadCall<'_>, theirs: &Theirs, ours: &Answer) -> Option<Known> {
    match theirs {
        Theirs::NoCall => read_without_call(call, ours),
        Theirs::Answered(answer) => read_otherwise(call, answer, ours),
        _ => None,
    }
}

fn takes_structs(step: ReadStep) -> bool {
    matches!(
        step,
        ReadStep::StructBegin | ReadStep::StructEnd | ReadStep::Skip
    )
}

fn read_without_call(call: &ReadCall<'_>, ours: &Answer) -> Option<Known> {
    let at = call.place;
    if at > call.bytes.len() {
        return is(ours, Kind::StartBeyond, at).then_some(Known::StartBeyond);
    }
    if call.step == ReadStep::Skip && call.depth > 127 {
        return is(ours, Kind::DepthBeyond, at).then_some(Known::SkipDepthBeyond);
    }
    if takes_structs(call.step) && call.struct_depth > MOST_STRUCTS {
        return is(ours, Kind::DepthBeyond, at).then_some(Known::StructDepthBeyond);
    }
    let beyond_limit = call.limits.structs.is_some_and(|l| call.struct_depth > l);
    match call.step {
        ReadStep::Scalar => is(ours, Kind::WrongType, at).then_some(Known::NoScalarKind),
        ReadStep::StructBegin if beyond_limit => {
            is(ours, Kind::StructDepth, at).then_some(Known::DepthAboveLimit)
        }
        ReadStep::StructEnd if beyond_limit => {
            (*ours == depth_answer(at, call.struct_depth - 1)).then_some(Known::DepthAboveLimit)
        }
        _ => None,
    }
}

fn depth_answer(end: usize, depth: usize) -> Answer {
    Answer::accepted(end, [depth as u64, 0, 0, 0])
}

fn read_otherwise(call: &ReadCall<'_>, theirs: &Answer, ours: &Answer) -> Option<Known> {
    let at = call.place;
    match call.step {
        ReadStep::StructBegin | ReadStep::StructEnd => {
            let begin = call.step == ReadStep::StructBegin;
            struct_step(begin, call.struct_depth, at, theirs, ours)
        }
        ReadStep::Skip if call.struct_depth > MOST_STRUCTS => {
            is(ours, Kind::DepthBeyond, at).then_some(Known::StructDepthBeyond)
        }
        ReadStep::Skip => struct_cap(call, ours),
        ReadStep::Double => nan_read(theirs, ours, 0),
        ReadStep::Scalar if call.kind == TType::Double => nan_read(theirs, ours, 1),
        ReadStep::Frame => frame(call, theirs, ours),
        _ => None,
    }
}

/// A skip that reaches the most structs: what the crate itself answers where that is its limit.
fn struct_cap(call: &ReadCall<'_>, ours: &Answer) -> Option<Known> {
    let uncapped = call.limits.structs.is_none_or(|l| l > MOST_STRUCTS);
    if !uncapped || ours.refusal != Some(Kind::StructDepth) {
        return None;
    }
    let limits = Limits {
        structs: Some(MOST_STRUCTS),
        ..call.limits
    };
    let capped = published::read(&call.under(limits));
    capped.is(ours).then_some(Known::StructCap)
}

/// A struct's begin or end, read or written.
fn struct_step(
    begin: bool,
    depth: usize,
    at: usize,
    theirs: &Answer,
    ours: &Answer,
) -> Option<Known> {
    let went_on = depth_answer(
        at,
        if begin {
            depth + 1
        } else {
            depth.wrapping_sub(1)
        },
    );
    if depth > MOST_STRUCTS {
        return is(ours, Kind::DepthBeyond, at).then_some(Known::StructDepthBeyond);
    }
    if *theirs != went_on {
        return None;
    }
    if begin && depth == MOST_STRUCTS {
        return is(ours, Kind::StructDepth, at).then_some(Known::StructCap);
    }
    let none_open = !begin && depth == 0 && is(ours, Kind::NoStructOpen, at);
    none_open.then_some(Known::StructEndWithNoneOpen)
}

/// Answers that are alike but for a NaN's payload.
fn nan_read(theirs: &Answer, ours: &Answer, index: usize) -> Option<Known> {
    let mut one_nan = *theirs;
    one_nan.values[index] = NAN;
    let nan = f64::from_bits(theirs.values[index]).is_nan();
    (nan && theirs.refusal.is_none() && *ours == one_nan).then_some(Known::NanRead)
}

fn frame(call: &ReadCall<'_>, theirs: &Answer, ours: &Answer) -> Option<Known> {
    let at = call.place;
    if at == call.bytes.len() {
        let end = is(theirs, Kind::ShortInput, at) && *ours == Answer::accepted(at, [0; 4]);
        return end.then_some(Known::FrameEnd);
    }
    let limit_matters = is(theirs, Kind::FrameLimit, at) != is(ours, Kind::FrameLimit, at);
    let by_the_rules = Plain.read(call) == Some(*ours);
    (call.limits.frame != Limits::DEFAULT.frame && limit_matters && by_the_rules)
        .then_some(Known::FramedLimits)
}

/// The difference that explains two unlike answers to a write.
pub fn of_write(call: &WriteCall<'_>, theirs: &Theirs, ours: &Answer) -> Option<Known> {
    let at = call.place;
    match theirs {
        Theirs::NoCall => write_without_call(call, ours),
        Theirs::Panicked => {
            let missing = call.step == WriteStep::MapBegin && is(ours, Kind::Missing, at);
            missing.then_some(Known::MapTypeMissing)
        }
        Theirs::Answered(answer) => write_otherwise(call, answer, ours),
        Theirs::Strange(_) => None,
    }
}

fn write_without_call(call: &WriteCall<'_>, ours: &Answer) -> Option<Known> {
    let at = call.place;
    let Some(refusal) = ours.refusal else {
        let beyond_limit = call.structs.is_some_and(|limit| call.struct_depth > limit);
        let ended = call.step == WriteStep::StructEnd
            && beyond_limit
            && *ours == depth_answer(at, call.struct_depth - 1);
        return ended.then_some(Known::DepthAboveLimit);
    };
    match (refusal, call.step) {
        (Kind::StartBeyond, _) => is(ours, Kind::StartBeyond, at).then_some(Known::StartBeyond),
        (Kind::DepthBeyond, WriteStep::StructBegin | WriteStep::StructEnd) => {
            is(ours, Kind::DepthBeyond, at).then_some(Known::StructDepthBeyond)
        }
        (Kind::StructDepth, WriteStep::StructBegin) => {
            is(ours, Kind::StructDepth, at).then_some(Known::DepthAboveLimit)
        }
        (Kind::TooLong, _) => is(ours, Kind::TooLong, at).then_some(Known::LengthWraps),
        (Kind::NotUtf8, WriteStep::MessageBegin | WriteStep::String) => {
            is(ours, Kind::NotUtf8, 0).then_some(Known::TextNotUtf8)
        }
        (Kind::OutputFull, WriteStep::Frame) => {
            is(ours, Kind::OutputFull, at).then_some(Known::FramedWriterFull)
        }
        _ => None,
    }
}

fn write_otherwise(call: &WriteCall<'_>, theirs: &Answer, ours: &Answer) -> Option<Known> {
    let at = call.place;
    match call.step {
        WriteStep::StructBegin | WriteStep::StructEnd => {
            let begin = call.step == WriteStep::StructBegin;
            struct_step(begin, call.struct_depth, at, theirs, ours)
        }
        WriteStep::MapBegin => {
            let room_first = call.absent.second
                && is(theirs, Kind::OutputFull, at)
                && is(ours, Kind::Missing, at);
            room_first.then_some(Known::MapTypeMissing)
        }
        _ => {
            let wraps = call.text.len() > i32::MAX as usize && is(ours, Kind::TooLong, at);
            wraps.then_some(Known::LengthWraps)
        }
    }
}

/// The difference that explains unlike bytes under like, accepted answers.
pub fn of_bytes(call: &WriteCall<'_>, theirs: &[u8], ours: &[u8]) -> Option<Known> {
    let nan = call.step == WriteStep::Double && f64::from_bits(call.number).is_nan();
    let mut one_nan = theirs.to_vec();
    one_nan
        .get_mut(call.place..call.place + 8)?
        .copy_from_slice(&NAN.to_be_bytes());
    (nan && one_nan == ours).then_some(Known::NanWritten)
}

/// The difference that explains an answer to a skip by a byte that is no type's.
pub fn of_unknown_type(place: usize, ours: &Answer) -> Option<Known> {
    is(ours, Kind::UnknownType, place).then_some(Known::UnknownTypeAtHost)
}
