//! The port's calls, by whichever archive offers them.

use turmyshge::steps::{Answer, ReadCall, ReadStep, WriteCall};
use turmyshge::{Kind, Limits, Refusal, Skip, Skipped};

/// Something that claims to follow the rules. A call that it does not offer is answered by none.
pub trait Port: Sync {
    /// What differences are reported under.
    fn name(&self) -> &'static str;

    /// Makes a read.
    fn read(&self, call: &ReadCall<'_>) -> Option<Answer>;

    /// Makes a write into `out`.
    fn write(&self, call: &WriteCall<'_>, out: &mut [u8]) -> Option<Answer>;

    /// Skips a value by its type's byte.
    fn skip(&self, bytes: &[u8], place: usize, type_byte: u8, how: &Skip) -> Option<Answer>;
}

/// The desk's call, `thrift_skip`.
pub struct Host;

impl Port for Host {
    fn name(&self) -> &'static str {
        "port's host call"
    }

    /// Skips alone, where the call is one that the host's call can say.
    fn read(&self, call: &ReadCall<'_>) -> Option<Answer> {
        skip_of(self, call)
    }

    fn write(&self, _: &WriteCall<'_>, _: &mut [u8]) -> Option<Answer> {
        None
    }

    fn skip(&self, bytes: &[u8], place: usize, type_byte: u8, how: &Skip) -> Option<Answer> {
        let sayable = how.struct_depth == 0 && how.limits == Limits::DEFAULT;
        sayable.then(|| {
            told(
                turmyshge::skip_by_byte(bytes, place, how.depth, type_byte),
                0,
            )
        })
    }
}

/// The call under any limits and inside open structs, `thrift_skip_within`.
pub struct Within;

impl Port for Within {
    fn name(&self) -> &'static str {
        "port's host call within limits"
    }

    /// Skips alone, but for Utf7's, which no byte asks for.
    fn read(&self, call: &ReadCall<'_>) -> Option<Answer> {
        skip_of(self, call)
    }

    fn write(&self, _: &WriteCall<'_>, _: &mut [u8]) -> Option<Answer> {
        None
    }

    fn skip(&self, bytes: &[u8], place: usize, type_byte: u8, how: &Skip) -> Option<Answer> {
        let skipped = how.value_by_byte(bytes, place, type_byte);
        Some(told(skipped, how.struct_depth as u64))
    }
}

/// A skip that was asked for as a read.
fn skip_of(port: &dyn Port, call: &ReadCall<'_>) -> Option<Answer> {
    let kind = call.kind.wire().filter(|_| call.step == ReadStep::Skip)?;
    let how = Skip {
        depth: call.depth,
        struct_depth: call.struct_depth,
        limits: call.limits,
    };
    port.skip(call.bytes, call.place, kind.byte(), &how)
}

/// A skip's answer: count and struct depth where it passed, the count where it was refused.
fn told(skipped: Result<Skipped, Refusal>, struct_depth: u64) -> Answer {
    match skipped {
        Ok(passed) => Answer::accepted(passed.end, [passed.count as u64, struct_depth, 0, 0]),
        Err(refused) => skip_refused(refused.kind, refused.place, refused.count as u64),
    }
}

/// A refused skip's answer: its first value is the count.
pub fn skip_refused(refusal: Kind, place: usize, count: u64) -> Answer {
    Answer {
        values: [count, 0, 0, 0],
        ..Answer::refused(refusal, place)
    }
}

/// Every read and write, through the archive of `probe`.
#[cfg(feature = "steps")]
pub struct Probe;

#[cfg(feature = "steps")]
impl Port for Probe {
    fn name(&self) -> &'static str {
        "port"
    }

    fn read(&self, call: &ReadCall<'_>) -> Option<Answer> {
        Some(turmyshge::steps::read(call))
    }

    fn write(&self, call: &WriteCall<'_>, out: &mut [u8]) -> Option<Answer> {
        turmyshge::steps::write(call, out)
    }

    fn skip(&self, _: &[u8], _: usize, _: u8, _: &Skip) -> Option<Answer> {
        None
    }
}

/// Every port that this build has, the plain one last.
pub fn all() -> Vec<&'static dyn Port> {
    vec![
        #[cfg(feature = "steps")]
        &Probe,
        &Host,
        &Within,
        &crate::plain::Plain,
    ]
}
