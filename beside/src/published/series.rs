//! Several reads by one of the crate's readers, or several writes by one of its writers, to the first refusal.

use thrift::TConfiguration;
use turmyshge::steps::{Answer, ReadCall, WriteCall};

use super::reads::{fresh, read_by};
use super::writes::{fresh as fresh_writer, put, told, Writer};
use super::Theirs;

/// Makes the reads by one reader, which is fresh at the first one's place; where each starts is the reader's own
/// affair. Ends with the first that it refuses.
pub fn reads(calls: &[ReadCall<'_>]) -> Vec<Theirs> {
    let Some(first) = calls.first() else {
        return Vec::new();
    };
    let mut reader = fresh(first);
    to_first_refusal(calls, |call| read_by(call, &mut reader))
}

/// Makes the writes by one writer, which is fresh at the first one's place in `out`. Ends with the first that it
/// refuses.
pub fn writes(calls: &[WriteCall<'_>], out: &mut [u8]) -> Vec<Theirs> {
    let length = out.len();
    let Some(first) = calls.first() else {
        return Vec::new();
    };
    let mut writer = fresh_writer(out, first);
    to_first_refusal(calls, |call| {
        let place = length - writer.transport.rest.len();
        let written = put(&mut writer, call);
        told(&WriteCall { place, ..*call }, written, &writer, length)
    })
}

/// The bytes of writes by one writer, with no limits, into a growing buffer.
pub fn written(calls: &[WriteCall<'_>]) -> Vec<u8> {
    let strict = calls.first().is_none_or(|first| first.strict);
    let no_limits = TConfiguration::no_limits();
    let mut writer = Writer::with_config(Vec::new(), strict, no_limits);
    for call in calls {
        put(&mut writer, call).expect("a growing buffer takes everything");
    }
    writer.transport
}

fn to_first_refusal<C>(calls: &[C], mut make: impl FnMut(&C) -> Theirs) -> Vec<Theirs> {
    let mut answers = Vec::with_capacity(calls.len());
    for call in calls {
        let answer = make(call);
        let goes_on = matches!(answer, Theirs::Answered(Answer { refusal: None, .. }));
        answers.push(answer);
        if !goes_on {
            break;
        }
    }
    answers
}
