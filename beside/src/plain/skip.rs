//! The skip.

use turmyshge::steps::{Answer, StepRefusal, StepType};
use turmyshge::{Kind, Limits, Skip, TType};

use super::{header, refuse, text};
use crate::port::skip_refused;

/// What is the same for the whole skip, and the values begun so far.
struct Walk<'a> {
    bytes: &'a [u8],
    limits: &'a Limits,
    open: usize,
    count: u64,
}

/// Passes the value of type `kind` at `at`. The start and the depths have been tested.
pub fn skip(bytes: &[u8], at: usize, kind: StepType, how: &Skip) -> Answer {
    let mut walk = Walk {
        bytes,
        limits: &how.limits,
        open: how.struct_depth,
        count: 0,
    };
    match walk.value(at, kind, how.depth) {
        Ok(end) => Answer::accepted(end, [walk.count, how.struct_depth as u64, 0, 0]),
        Err(refused) => skip_refused(refused.kind, refused.place, walk.count),
    }
}

type Passed = Result<usize, StepRefusal>;

impl Walk<'_> {
    fn value(&mut self, at: usize, kind: StepType, depth: usize) -> Passed {
        self.count += 1;
        let Some(below) = depth.checked_sub(1) else {
            return refuse(Kind::SkipDepth, at);
        };
        let Some(kind) = kind.wire() else {
            return refuse(Kind::WrongType, at);
        };
        match kind {
            TType::Bool | TType::I08 => self.fixed(at, 1),
            TType::I16 => self.fixed(at, 2),
            TType::I32 => self.fixed(at, 4),
            TType::I64 | TType::Double => self.fixed(at, 8),
            TType::Uuid => self.fixed(at, 16),
            TType::String => text::bytes(self.bytes, at, self.limits).map(|(_, end)| end),
            TType::Struct => self.fields(at, below),
            TType::List | TType::Set => self.items(at, below),
            TType::Map => self.pairs(at, below),
            TType::Stop | TType::Void => refuse(Kind::WrongType, at),
        }
    }

    fn fixed(&self, at: usize, width: usize) -> Passed {
        text::body(self.bytes, at, width).map(|(_, end)| end)
    }

    fn fields(&mut self, at: usize, depth: usize) -> Passed {
        self.open = header::struct_begin(at, self.open, self.limits.structs)?;
        let mut at = at;
        loop {
            let (kind, id) = header::type_byte(self.bytes, at)?;
            if kind == TType::Stop {
                self.open -= 1;
                return Ok(id);
            }
            at = self.fixed(id, 2)?;
            at = self.value(at, kind.into(), depth)?;
        }
    }

    fn items(&mut self, at: usize, depth: usize) -> Passed {
        let ((kind, size), mut at) = header::list(self.bytes, at, self.limits)?;
        for _ in 0..size {
            at = self.value(at, kind.into(), depth)?;
        }
        Ok(at)
    }

    fn pairs(&mut self, at: usize, depth: usize) -> Passed {
        let ((key, value, size), mut at) = header::map(self.bytes, at, self.limits)?;
        for _ in 0..size {
            at = self.value(at, key.into(), depth)?;
            at = self.value(at, value.into(), depth)?;
        }
        Ok(at)
    }
}
