//! What a step answers.

use std::error::Error;
use std::fmt;

use crate::Kind;

/// The answer of any step.
///
/// ```
/// use turmyshge::steps::Answer;
/// use turmyshge::Kind;
///
/// assert_eq!(Answer::accepted(4, [9, 0, 0, 0]).into_result(), Ok(([9, 0, 0, 0], 4)));
/// assert_eq!(Answer::refused(Kind::ShortInput, 4).into_result().unwrap_err().place, 4);
/// ```
#[derive(Clone, Copy, Debug, PartialEq, Eq)]
pub struct Answer {
    /// Why the call was refused, if it was.
    pub refusal: Option<Kind>,
    /// The end where the call was accepted, the fault's place where it was not.
    pub place: usize,
    /// The step's values, as [`ReadStep`](super::ReadStep) and [`WriteStep`](super::WriteStep) list them; signed ones
    /// by their bits. A refused skip's first value is its count.
    pub values: [u64; 4],
}

/// A step was refused.
///
/// ```
/// use turmyshge::steps::StepRefusal;
/// use turmyshge::Kind;
///
/// let refused = StepRefusal { kind: Kind::FrameLimit, place: 0 };
/// assert_eq!(
///     refused.to_string(),
///     "refusal 18: frame above the frame limit, at byte 0 (the frame header's first byte)"
/// );
/// ```
#[derive(Clone, Copy, Debug, PartialEq, Eq)]
pub struct StepRefusal {
    /// Why.
    pub kind: Kind,
    /// Where the fault stands; [`Kind::points_at`] says what is there.
    pub place: usize,
}

impl Answer {
    /// An accepted call that ended at `end`.
    pub fn accepted(end: usize, values: [u64; 4]) -> Answer {
        Answer {
            refusal: None,
            place: end,
            values,
        }
    }

    /// A call refused at `place`.
    pub fn refused(refusal: Kind, place: usize) -> Answer {
        Answer {
            refusal: Some(refusal),
            place,
            values: [0; 4],
        }
    }

    /// The archive's record: refusal or 0, end or place, four values.
    #[cfg(feature = "steps")]
    pub(crate) fn from_record([number, place, a, b, c, d]: [u64; 6]) -> Answer {
        Answer {
            refusal: Kind::in_record(number),
            place: crate::skip::in_memory(place),
            values: [a, b, c, d],
        }
    }

    /// Values and end, or the refusal and its place.
    pub fn into_result(self) -> Result<([u64; 4], usize), StepRefusal> {
        match self.refusal {
            None => Ok((self.values, self.place)),
            Some(kind) => Err(StepRefusal {
                kind,
                place: self.place,
            }),
        }
    }
}

impl fmt::Display for Answer {
    fn fmt(&self, f: &mut fmt::Formatter<'_>) -> fmt::Result {
        match self.refusal {
            None => write!(f, "end {}, values {:x?}", self.place, self.values),
            Some(refusal) => write!(
                f,
                "{refusal}, at byte {}, values {:x?}",
                self.place, self.values
            ),
        }
    }
}

impl fmt::Display for StepRefusal {
    fn fmt(&self, f: &mut fmt::Formatter<'_>) -> fmt::Result {
        write!(
            f,
            "{}, at byte {} ({})",
            self.kind,
            self.place,
            self.kind.points_at()
        )
    }
}

impl Error for StepRefusal {}
