//! The comparison tried on itself: ports that now and then answer wrong must be caught.

use std::sync::atomic::{AtomicU64, Ordering};

use turmyshge::steps::{Answer, ReadCall, ReadStep, WriteCall};
use turmyshge::{Kind, Skip};

use crate::inputs::{Amount, Share, SECTIONS};
use crate::judge::Tally;
use crate::plain::Plain;
use crate::port::Port;
use crate::shares;

/// One way of being wrong.
#[derive(Clone, Copy)]
enum Fault {
    End,
    Number,
    Place,
    Count,
    Value,
    ByteTooMany,
}

const FAULTS: [(Fault, &str); 6] = [
    (Fault::End, "an end one too far"),
    (Fault::Number, "another refusal's number"),
    (Fault::Place, "a refusal one byte on"),
    (Fault::Count, "a count one too high"),
    (Fault::Value, "a value with a bit turned"),
    (Fault::ByteTooMany, "a byte written too many"),
];

/// Of the answers that could be wrong in its way, a faulty port gets one in this many wrong.
const SELDOM: u64 = 500;

/// Right, but for one answer in many.
struct Faulty {
    fault: Fault,
    answers: AtomicU64,
}

impl Faulty {
    fn now(&self) -> bool {
        self.answers.fetch_add(1, Ordering::Relaxed) % SELDOM == SELDOM - 1
    }

    /// A wrong answer where this fault can make one.
    fn spoilt(&self, answer: Answer, is_skip: bool) -> Answer {
        let mut spoilt = answer;
        match (self.fault, answer.refusal) {
            (Fault::End, None) | (Fault::Place, Some(_)) => spoilt.place += 1,
            (Fault::Number, Some(refusal)) => spoilt.refusal = Some(another(refusal)),
            (Fault::Count, _) if is_skip => spoilt.values[0] += 1,
            (Fault::Value, None) if !is_skip => spoilt.values[0] ^= 1,
            _ => return answer,
        }
        if self.now() {
            spoilt
        } else {
            answer
        }
    }
}

fn another(refusal: Kind) -> Kind {
    Kind::ALL[usize::from(refusal.number()) % Kind::ALL.len()]
}

impl Port for Faulty {
    fn name(&self) -> &'static str {
        "a faulty port"
    }

    fn read(&self, call: &ReadCall<'_>) -> Option<Answer> {
        let answer = Plain.read(call)?;
        Some(self.spoilt(answer, call.step == ReadStep::Skip))
    }

    fn write(&self, call: &WriteCall<'_>, out: &mut [u8]) -> Option<Answer> {
        let answer = Plain.write(call, out)?;
        let room_left = answer.refusal.is_none() && answer.place < out.len();
        if matches!(self.fault, Fault::ByteTooMany) && room_left && self.now() {
            out[answer.place] ^= 1;
        }
        Some(self.spoilt(answer, false))
    }

    fn skip(&self, _: &[u8], _: usize, _: u8, _: &Skip) -> Option<Answer> {
        None
    }
}

/// Shows the smaller sections to each faulty port, and says for each whether it was caught; if wanted, in the words of
/// a report, as a run prints it.
pub fn all_caught(in_words: bool) -> bool {
    FAULTS.iter().fold(true, |all, (fault, words)| {
        let tally = tried(*fault);
        let caught = tally.differences > 0;
        let verdict = if caught { "caught" } else { "NOT CAUGHT" };
        println!("tried: {words}: {verdict} {} times", tally.differences);
        if in_words {
            let first = tally.reports.first();
            println!("DIFFERENCE: {}", first.map_or("none", String::as_str));
        }
        all && caught
    })
}

/// What comes of a faulty port on the sections that are little, and a few random values.
fn tried(fault: Fault) -> Tally {
    let share = Share {
        index: 0,
        of: 1,
        rounds: 50,
        seed: 1,
    };
    let faulty: &'static dyn Port = Box::leak(Box::new(Faulty {
        fault,
        answers: AtomicU64::new(0),
    }));
    let mut sum = Tally::default();
    for section in &SECTIONS {
        if matches!(section.amount, Amount::Little | Amount::Asked) {
            sum.add(shares::run(section, 1, share, &[faulty]));
        }
    }
    sum
}
