//! The kept list: some thousand of the crate's answers, for a replay where the crate can't be had.
//!
//! From every kind of input a few calls are kept for each way in which a step can answer. Only answers that the rules
//! share are kept, so no known difference is among them.

use std::collections::BTreeMap;

use turmyshge::steps::{Answer, Limits, ReadCall, ReadStep, StepType, WriteCall, WriteStep};
use turmyshge::{Kind, Skip};

use crate::hex;
use crate::plain::Plain;
use crate::port::Port;
use crate::published::{self, Theirs};
use crate::rng::Rng;
use crate::visitor::{untouched, Visitor};

/// Inputs and buffers longer than this are not kept.
const LONGEST: usize = 64;
/// Answers that end this far on are taken for one way.
const FAR: usize = 32;
/// Calls kept for each way of answering.
const EACH: usize = 3;

/// A way of answering: step, message or type asked for, refusal, bytes passed or written.
type Way = (bool, u8, u8, Option<Kind>, usize);

/// Keeps lines, a few for each way of answering, by fair draw from a fixed seed.
pub struct Keeper {
    ways: BTreeMap<Way, (usize, Vec<String>)>,
    rng: Rng,
}

impl Keeper {
    /// A keeper of nothing yet.
    pub fn new(seed: u64) -> Keeper {
        Keeper {
            ways: BTreeMap::new(),
            rng: Rng::new(seed, 0),
        }
    }

    /// The lines kept, in the order of their steps.
    pub fn lines(&self) -> impl Iterator<Item = &String> {
        self.ways.values().flat_map(|(_, lines)| lines)
    }

    fn keep(&mut self, way: Way, line: impl FnOnce() -> String) {
        let (seen, lines) = self.ways.entry(way).or_default();
        *seen += 1;
        if lines.len() < EACH {
            return lines.push(line());
        }
        let drawn = self.rng.below(*seen);
        if let Some(kept) = lines.get_mut(drawn) {
            *kept = line();
        }
    }
}

impl Visitor for Keeper {
    fn read(&mut self, call: &ReadCall<'_>) {
        if call.bytes.len() > LONGEST {
            return;
        }
        let Some(answer) = Plain.read(call) else {
            return;
        };
        if published::read(call) != Theirs::Answered(answer) {
            return;
        }
        let asked = match call.step {
            ReadStep::Skip | ReadStep::Scalar => index(call.kind),
            ReadStep::MessageBegin => u8::from(call.strict),
            // judged by its text: each range of first bytes is kept
            ReadStep::String if matches!(answer.refusal, None | Some(Kind::NotUtf8)) => {
                let lead = call.bytes.get(call.place + 4);
                lead.map_or(0, |lead| lead >> 3)
            }
            _ => 0,
        };
        let passed = (answer.place - call.place.min(answer.place)).min(FAR);
        let way = (false, call.step as u8, asked, answer.refusal, passed);
        self.keep(way, || read_line(call, &answer));
    }

    fn write(&mut self, call: &WriteCall<'_>, length: usize) {
        if length > LONGEST || call.text.len() > LONGEST {
            return;
        }
        let (mut ours, mut theirs) = (untouched(length), untouched(length));
        let Some(answer) = Plain.write(call, &mut ours) else {
            return;
        };
        let alike = published::write(call, &mut theirs) == Theirs::Answered(answer);
        if !alike || (answer.refusal.is_none() && ours != theirs) {
            return;
        }
        let written = match answer.refusal {
            None => &theirs[call.place..answer.place],
            Some(_) => &[],
        };
        let asked = match call.step {
            WriteStep::FieldBegin | WriteStep::ListBegin | WriteStep::MapBegin => index(call.kind),
            WriteStep::MessageBegin => u8::from(call.strict),
            _ => 0,
        };
        let way = (true, call.step as u8, asked, answer.refusal, written.len());
        self.keep(way, || write_line(call, length, &answer, written));
    }

    fn skip(&mut self, _: &[u8], _: usize, _: u8, _: &Skip) {}
}

/// `r REFUSAL PLACE A B C D STEP STRICT KIND DEPTH STRUCT_DEPTH MESSAGE FRAME STRUCTS CONTAINER STRING PLACE BYTES`
///
/// All numbers and bytes are hex, a type is its index in the list of all, an absent limit is the greatest number, no bytes are `-`.
fn read_line(call: &ReadCall<'_>, answer: &Answer) -> String {
    let Limits {
        message,
        frame,
        structs,
        container,
        string,
    } = call.limits;
    let asked = [
        call.step as usize,
        usize::from(call.strict),
        usize::from(index(call.kind)),
        call.depth,
        call.struct_depth,
        limit(message),
        limit(frame),
        limit(structs),
        limit(container),
        limit(string),
        call.place,
    ];
    let bytes = bytes_or_dash(call.bytes);
    counted(format!("r {} {} {bytes}", told(answer), words(&asked)))
}

/// `w REFUSAL PLACE A B C D STEP STRICT KIND OTHER ABSENT NUMBER STRUCT_DEPTH STRUCTS PLACE LENGTH 0 TEXT WRITTEN`
///
/// LENGTH is the buffer's, WRITTEN what stands between the write's place and its end; every other byte stays. The 0
/// makes as many numbers as a read has.
fn write_line(call: &WriteCall<'_>, length: usize, answer: &Answer, written: &[u8]) -> String {
    let kind = match call.step {
        WriteStep::MessageBegin => call.message as u8,
        _ => index(call.kind),
    };
    let asked = [
        call.step as usize,
        usize::from(call.strict),
        usize::from(kind),
        usize::from(index(call.other)),
        usize::from(call.absent.bits()),
        call.number as usize,
        call.struct_depth,
        limit(call.structs),
        call.place,
        length,
        0,
    ];
    let (text, written) = (bytes_or_dash(call.text), bytes_or_dash(written));
    counted(format!(
        "w {} {} {text} {written}",
        told(answer),
        words(&asked)
    ))
}

/// A type by its index in the list of all, as the program that replays the list takes it.
fn index(kind: StepType) -> u8 {
    let index = StepType::ALL.iter().position(|known| *known == kind);
    index.expect("every type is listed") as u8
}

/// The line behind its own length in four digits, the line's end counted: so it can be read without a search.
fn counted(line: String) -> String {
    format!("{:04x} {line}", line.len() + 1)
}

fn told(answer: &Answer) -> String {
    let [a, b, c, d] = answer.values.map(|value| value as usize);
    words(&[usize::from(number(answer)), answer.place, a, b, c, d])
}

fn words(numbers: &[usize]) -> String {
    let words: Vec<String> = numbers.iter().map(|n| format!("{n:x}")).collect();
    words.join(" ")
}

fn number(answer: &Answer) -> u8 {
    answer.refusal.map_or(0, Kind::number)
}

fn limit(limit: Option<usize>) -> usize {
    limit.unwrap_or(usize::MAX)
}

fn bytes_or_dash(bytes: &[u8]) -> String {
    if bytes.is_empty() {
        return "-".into();
    }
    hex::whole(bytes)
}
