//! Random values, and the writes that write them.

use turmyshge::steps::{WriteCall, WriteStep};
use turmyshge::TType;

use crate::rng::Rng;

/// A value: its type, and one write after the other.
pub struct Tree {
    /// The value's type.
    pub kind: TType,
    /// What writes it.
    pub writes: Vec<Write>,
    /// The levels of nesting in it, itself counted.
    pub levels: usize,
}

impl Tree {
    /// The calls that write it.
    pub fn calls(&self) -> Vec<WriteCall<'_>> {
        self.writes.iter().map(|write| write.call(0)).collect()
    }
}

/// One write of a value.
pub struct Write {
    /// The step.
    pub step: WriteStep,
    kinds: [TType; 2],
    number: u64,
    text: Vec<u8>,
}

impl Write {
    fn new(step: WriteStep, kinds: [TType; 2], number: u64) -> Write {
        Write {
            step,
            kinds,
            number,
            text: Vec::new(),
        }
    }

    fn of_text(step: WriteStep, text: Vec<u8>) -> Write {
        Write {
            text,
            ..Write::new(step, [TType::Stop; 2], 0)
        }
    }

    /// Whether it puts bytes; a begin or end that puts none only changes the struct depth, or nothing.
    pub fn puts_bytes(&self) -> bool {
        use WriteStep::{FieldEnd, ListEnd, MapEnd, SetEnd, StructBegin, StructEnd};
        let bare = [StructBegin, StructEnd, FieldEnd, ListEnd, SetEnd, MapEnd];
        !bare.contains(&self.step)
    }

    /// The call that makes it at `place`.
    pub fn call(&self, place: usize) -> WriteCall<'_> {
        WriteCall {
            kind: self.kinds[0].into(),
            other: self.kinds[1].into(),
            number: self.number,
            text: &self.text,
            structs: None,
            ..WriteCall::new(self.step, place)
        }
    }
}

const LEAVES: [TType; 8] = [
    TType::Bool,
    TType::I08,
    TType::I16,
    TType::I32,
    TType::I64,
    TType::Double,
    TType::String,
    TType::Uuid,
];
const NESTING: [TType; 4] = [TType::Struct, TType::List, TType::Set, TType::Map];

/// What a random value is to be like.
pub struct Growth {
    /// The values in it, or so.
    pub size: usize,
    /// The most levels of nesting.
    pub levels: usize,
    /// A value has fewer parts than this.
    pub parts: usize,
    /// The levels that are reached in any case, by one line of values from the whole downwards.
    pub reach: usize,
    /// The types in that line.
    pub line: &'static [TType],
}

impl Growth {
    /// As deep as it comes.
    pub fn usual(size: usize, levels: usize) -> Growth {
        Growth {
            size,
            levels,
            parts: 5,
            reach: 0,
            line: &NESTING,
        }
    }

    /// Deep: a little of everything around a line of values that goes to `levels`.
    pub fn deep(levels: usize, line: &'static [TType]) -> Growth {
        Growth {
            size: 150,
            levels,
            parts: 4,
            reach: levels,
            line,
        }
    }

    /// Wide: few levels, many parts.
    pub fn wide() -> Growth {
        Growth {
            parts: 50,
            ..Growth::usual(300, 4)
        }
    }
}

/// Grows values from random numbers.
pub struct Grower<'a> {
    rng: &'a mut Rng,
    growth: Growth,
    writes: Vec<Write>,
    /// Values that may still be begun.
    left: usize,
    deepest: usize,
    /// How deep the line of values has come.
    line_at: usize,
}

/// A random value.
pub fn grow(rng: &mut Rng, growth: Growth) -> Tree {
    let kind = rng.pick(&NESTING);
    let mut grower = Grower {
        rng,
        writes: Vec::new(),
        left: growth.size,
        deepest: 0,
        line_at: 0,
        growth,
    };
    grower.value(kind, grower.growth.levels, 1);
    Tree {
        kind,
        levels: grower.deepest,
        writes: grower.writes,
    }
}

impl Grower<'_> {
    /// A type for a value inside another: nesting is likelier the more levels are left.
    fn kind(&mut self, levels: usize) -> TType {
        let nest = levels > 1 && self.left > 0 && self.rng.below(100) < 30 + levels / 2;
        if nest {
            self.rng.pick(&NESTING)
        } else {
            self.rng.pick(&LEAVES)
        }
    }

    /// Whether a value that can have parts is the next in the line, and not its last: its first part is then one that
    /// can have parts too.
    fn leads_on(&mut self, depth: usize) -> bool {
        let leads = depth == self.line_at + 1 && depth < self.growth.reach;
        self.line_at += usize::from(leads);
        leads
    }

    fn part_kind(&mut self, leads: bool, levels: usize) -> TType {
        if leads {
            self.rng.pick(self.growth.line)
        } else {
            self.kind(levels)
        }
    }

    fn value(&mut self, kind: TType, levels: usize, depth: usize) {
        self.left = self.left.saturating_sub(1);
        self.deepest = self.deepest.max(depth);
        match kind {
            TType::Struct => self.fields(levels, depth),
            TType::List | TType::Set => self.items(kind, levels, depth),
            TType::Map => self.pairs(levels, depth),
            _ => self.scalar(kind),
        }
    }

    fn put(&mut self, step: WriteStep, kinds: [TType; 2], number: u64) {
        self.writes.push(Write::new(step, kinds, number));
    }

    fn bare(&mut self, step: WriteStep) {
        self.put(step, [TType::Stop; 2], 0);
    }

    fn scalar(&mut self, kind: TType) {
        let bits = self.rng.bits() >> self.rng.below(64);
        let none = [TType::Stop; 2];
        match kind {
            TType::Bool => self.put(WriteStep::Bool, none, bits & 1),
            TType::I08 => self.put(WriteStep::I8, none, bits),
            TType::I16 => self.put(WriteStep::I16, none, bits),
            TType::I32 => self.put(WriteStep::I32, none, bits),
            TType::I64 => self.put(WriteStep::I64, none, bits),
            TType::Double => self.put(WriteStep::Double, none, (bits as f64).to_bits()),
            TType::Uuid => {
                let uuid = self.bytes(16);
                self.writes.push(Write::of_text(WriteStep::Uuid, uuid));
            }
            _ => {
                // now and then longer than the pieces in which the crate passes a body
                let most = if self.rng.once_in(50) { 600 } else { 12 };
                let length = self.rng.below(most);
                let text = self.bytes(length);
                self.writes.push(Write::of_text(WriteStep::Bytes, text));
            }
        }
    }

    fn bytes(&mut self, length: usize) -> Vec<u8> {
        (0..length).map(|_| self.rng.bits() as u8).collect()
    }

    fn fields(&mut self, levels: usize, depth: usize) {
        let leads = self.leads_on(depth);
        self.bare(WriteStep::StructBegin);
        for number in 0..self.parts(leads) {
            let kind = self.part_kind(leads && number == 0, levels);
            let id = self.rng.bits() & 0xffff;
            self.put(WriteStep::FieldBegin, [kind, kind], id);
            self.value(kind, levels - 1, depth + 1);
            self.bare(WriteStep::FieldEnd);
        }
        self.bare(WriteStep::FieldStop);
        self.bare(WriteStep::StructEnd);
    }

    fn items(&mut self, list: TType, levels: usize, depth: usize) {
        let leads = self.leads_on(depth);
        let kind = self.part_kind(leads, levels);
        let size = self.parts(leads);
        let (begin, end) = if list == TType::List {
            (WriteStep::ListBegin, WriteStep::ListEnd)
        } else {
            (WriteStep::SetBegin, WriteStep::SetEnd)
        };
        self.put(begin, [kind, kind], size as u64);
        for _ in 0..size {
            self.value(kind, levels - 1, depth + 1);
        }
        self.bare(end);
    }

    fn pairs(&mut self, levels: usize, depth: usize) {
        let leads = self.leads_on(depth);
        // the line goes on in the first value, or in the key where that can have parts
        let kinds = [self.kind(levels), self.part_kind(leads, levels)];
        let size = self.parts(leads);
        self.put(WriteStep::MapBegin, kinds, size as u64);
        for _ in 0..size {
            self.value(kinds[0], levels - 1, depth + 1);
            self.value(kinds[1], levels - 1, depth + 1);
        }
        self.bare(WriteStep::MapEnd);
    }

    /// How many parts a value gets: none once the values are used up, but in the line always one.
    fn parts(&mut self, leads: bool) -> usize {
        let parts = self.rng.below(self.growth.parts).min(self.left);
        parts.max(usize::from(leads))
    }
}
