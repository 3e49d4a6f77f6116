//! Holds the crate's answer against each port's.

mod reports;
mod series;

use turmyshge::steps::{Answer, ReadCall, ReadStep, WriteCall};
use turmyshge::{Skip, TType};

use crate::known::{self, Known};
use crate::port::Port;
use crate::published::{self, Theirs};
use crate::visitor::{untouched, Visitor};

/// Differences kept word for word; the rest are only counted.
const REPORTS: usize = 10;

/// What came of a number of comparisons.
#[derive(Clone, Default)]
pub struct Tally {
    /// Answers held against each other.
    pub comparisons: u64,
    /// How often each known difference was met, in the order of [`Known::ALL`].
    pub known: Vec<u64>,
    /// Differences that are on no list.
    pub differences: u64,
    /// The first of them, in words.
    pub reports: Vec<String>,
}

impl Tally {
    fn new() -> Tally {
        Tally {
            known: vec![0; Known::ALL.len()],
            ..Tally::default()
        }
    }

    /// Adds another tally to this one.
    pub fn add(&mut self, other: Tally) {
        self.comparisons += other.comparisons;
        self.differences += other.differences;
        self.reports.extend(other.reports);
        self.reports.truncate(REPORTS);
        self.known.resize(Known::ALL.len(), 0);
        for (mine, theirs) in self.known.iter_mut().zip(other.known) {
            *mine += theirs;
        }
    }
}

/// Compares, and keeps the tally.
pub struct Judge<'a> {
    ports: &'a [&'static dyn Port],
    /// What came of it so far.
    pub tally: Tally,
}

impl<'a> Judge<'a> {
    /// A judge over some ports.
    pub fn new(ports: &'a [&'static dyn Port]) -> Judge<'a> {
        Judge {
            ports,
            tally: Tally::new(),
        }
    }

    fn note(&mut self, known: Option<Known>, report: impl FnOnce() -> String) {
        match known {
            Some(known) => self.tally.known[known as usize] += 1,
            None => {
                self.tally.differences += 1;
                if self.tally.reports.len() < REPORTS {
                    self.tally.reports.push(report());
                }
            }
        }
    }

    fn judge_read(&mut self, call: &ReadCall<'_>, theirs: &Theirs) {
        for port in self.ports {
            if let Some(ours) = port.read(call) {
                self.hold_read(call, theirs, *port, &ours);
            }
        }
    }

    fn hold_read(&mut self, call: &ReadCall<'_>, theirs: &Theirs, port: &dyn Port, ours: &Answer) {
        self.tally.comparisons += 1;
        if !theirs.is(ours) {
            let known = known::of_read(call, theirs, ours);
            self.note(known, || reports::of_read(call, theirs, port.name(), ours));
        }
    }

    /// Whether one write came out alike: answers, bytes written, bytes left alone.
    fn judge_write(&mut self, call: &WriteCall<'_>, length: usize, port: &dyn Port, made: &Made) {
        let mut out = untouched(length);
        let Some(ours) = port.write(call, &mut out) else {
            return;
        };
        self.tally.comparisons += 1;
        let report = |what| reports::of_write(call, length, what, made, port, &ours, &out);
        let before = untouched(length);
        let wrote_nothing = ours.refusal.is_some() || ours.place == call.place;
        if wrote_nothing && out != before {
            return self.note(None, || report("a write of no byte changed the buffer"));
        }
        if !made.theirs.is(&ours) {
            let known = known::of_write(call, &made.theirs, &ours);
            return self.note(known, || report("the answers differ"));
        }
        if ours.refusal.is_none() && out != made.out {
            let known = known::of_bytes(call, &made.out, &out);
            return self.note(known, || report("the bytes differ"));
        }
        if ours.refusal.is_some() && made.out != before {
            self.note(Some(Known::PartialBytes), String::new);
        }
    }
}

/// What the crate did with a write.
struct Made {
    theirs: Theirs,
    out: Vec<u8>,
}

impl Made {
    fn copy(theirs: &Theirs, out: &[u8]) -> Made {
        Made {
            theirs: theirs.clone(),
            out: out.to_vec(),
        }
    }
}

impl Visitor for Judge<'_> {
    fn read(&mut self, call: &ReadCall<'_>) {
        self.judge_read(call, &published::read(call));
    }

    fn write(&mut self, call: &WriteCall<'_>, length: usize) {
        let mut out = untouched(length);
        let theirs = published::write(call, &mut out);
        let made = Made { theirs, out };
        for port in self.ports {
            self.judge_write(call, length, *port, &made);
        }
    }

    fn skip(&mut self, bytes: &[u8], place: usize, type_byte: u8, how: &Skip) {
        let kind = TType::from_byte(type_byte);
        let call = ReadCall {
            depth: how.depth,
            struct_depth: how.struct_depth,
            limits: how.limits,
            ..ReadCall::new(ReadStep::Skip, bytes, place).of(kind.unwrap_or(TType::Stop))
        };
        let beyond = place > bytes.len() || how.depth > 127 || how.struct_depth > 65_535;
        let in_domain = kind.is_some() || beyond;
        let theirs = if in_domain {
            published::read(&call)
        } else {
            Theirs::NoCall
        };
        for port in self.ports {
            let Some(ours) = port.skip(bytes, place, type_byte, how) else {
                continue;
            };
            self.tally.comparisons += 1;
            if !theirs.is(&ours) {
                let known = known::of_read(&call, &theirs, &ours).or_else(|| {
                    kind.is_none()
                        .then(|| known::of_unknown_type(place, &ours))?
                });
                self.note(known, || {
                    format!(
                        "by type byte {type_byte:02x}: {}",
                        reports::of_read(&call, &theirs, port.name(), &ours)
                    )
                });
            }
        }
    }

    fn reads(&mut self, calls: &[ReadCall<'_>]) {
        self.judge_reads(calls);
    }

    fn writes(&mut self, calls: &[WriteCall<'_>], length: usize) {
        self.judge_writes(calls, length);
    }

    fn expect_read(&mut self, call: &ReadCall<'_>, expected: Answer) {
        let rules = Theirs::Answered(expected);
        self.judge_read(call, &rules);
        let theirs = published::read(call);
        if theirs != rules {
            self.note(None, || {
                reports::of_read(call, &theirs, "the rules", &expected)
            });
        }
    }

    fn expect_write(&mut self, call: &WriteCall<'_>, length: usize, written: &[u8]) {
        let mut out = untouched(length);
        let end = call.place + written.len();
        out[call.place..end].copy_from_slice(written);
        let made = Made {
            theirs: Theirs::Answered(Answer::accepted(end, [0; 4])),
            out,
        };
        for port in self.ports {
            self.judge_write(call, length, *port, &made);
        }
        self.write(call, length);
    }
}
