//! Where a series of calls has come to: what a port is handed with its next call.

use turmyshge::steps::{Answer, ReadCall, ReadStep, WriteCall, WriteStep};

/// A place and the structs open.
pub struct State {
    /// Where the next call starts.
    pub place: usize,
    struct_depth: usize,
}

impl State {
    /// At a place, with no struct open.
    pub fn fresh(place: usize) -> State {
        State {
            place,
            struct_depth: 0,
        }
    }

    /// A read made from here.
    pub fn read<'a>(&self, call: &ReadCall<'a>) -> ReadCall<'a> {
        ReadCall {
            place: self.place,
            struct_depth: self.struct_depth,
            ..*call
        }
    }

    /// A write made from here.
    pub fn write<'a>(&self, call: &WriteCall<'a>) -> WriteCall<'a> {
        WriteCall {
            place: self.place,
            struct_depth: self.struct_depth,
            ..*call
        }
    }

    /// Moves past an accepted read.
    pub fn pass_read(&mut self, step: ReadStep, answer: &Answer) {
        let structs = [ReadStep::StructBegin, ReadStep::StructEnd];
        self.pass(answer, structs.contains(&step));
    }

    /// Moves past an accepted write.
    pub fn pass_write(&mut self, step: WriteStep, answer: &Answer) {
        let structs = [WriteStep::StructBegin, WriteStep::StructEnd];
        self.pass(answer, structs.contains(&step));
    }

    fn pass(&mut self, answer: &Answer, changes_depth: bool) {
        self.place = answer.place;
        if changes_depth {
            self.struct_depth = answer.values[0] as usize;
        }
    }
}
