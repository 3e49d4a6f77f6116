//! Crate thrift 0.25.0, asked the same questions, its answers said in the port's terms.

mod counting;
mod frames;
mod lent;
mod reads;
mod refusals;
mod series;
mod takes;
mod types;
mod writes;

pub use reads::read;
pub use series::{reads, writes, written};
pub use takes::take;
pub use types::ttype;
pub use writes::{put, write, Writer};

use turmyshge::steps::Answer;

/// What the crate did.
#[derive(Clone, Debug, PartialEq)]
pub enum Theirs {
    /// It answered.
    Answered(Answer),
    /// It panicked.
    Panicked,
    /// It has no such call, or no fresh reader or writer can be brought to make it.
    NoCall,
    /// It answered something that the rules have no word for.
    Strange(String),
}

impl Theirs {
    fn accepted(end: usize, values: [u64; 4]) -> Theirs {
        Theirs::Answered(Answer::accepted(end, values))
    }

    /// Whether that is what the crate answered.
    pub fn is(&self, answer: &Answer) -> bool {
        matches!(self, Theirs::Answered(theirs) if theirs == answer)
    }
}

/// Keeps the one panic that is expected of the crate, on a missing map type, from being printed.
pub fn hush_expected_panics() {
    let before = std::panic::take_hook();
    std::panic::set_hook(Box::new(move |panic| {
        let words = panic.payload_as_str().unwrap_or_default();
        if !words.starts_with("map identifier to write should contain") {
            before(panic);
        }
    }));
}
