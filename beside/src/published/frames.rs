//! Frames by the crate.

use std::io::{Read, Write};

use thrift::transport::{TFramedReadTransport, TFramedWriteTransport};
use turmyshge::steps::Answer;

use super::lent::Lent;
use super::{refusals, Theirs};

/// Reads one frame. The crate's framed reader always has the default limits.
pub fn read(bytes: &[u8], place: usize) -> Theirs {
    let mut lent = Lent::new(bytes, place);
    let mut payload = vec![0; bytes.len() - place];
    let read = TFramedReadTransport::with_capacity(0, &mut lent).read(&mut payload);
    match read.map_err(thrift::Error::from) {
        Ok(length) => {
            let (start, end) = (place + 4, place + 4 + length);
            if lent.at != end || payload[..length] != bytes[start..end] {
                return Theirs::Strange("another payload than the one that stands there".into());
            }
            Theirs::accepted(end, [1, start as u64, end as u64, 0])
        }
        Err(error) => match refusals::refusal(&error) {
            Some(refusal) => Theirs::Answered(Answer::refused(refusal, lent.item)),
            None => Theirs::Strange(format!("{error:?}")),
        },
    }
}

/// The bytes of one frame. They go into a growing buffer, as the crate never returns from a full one.
pub fn written(payload: &[u8]) -> Vec<u8> {
    let mut out = Vec::new();
    let mut frames = TFramedWriteTransport::with_capacity(0, &mut out);
    frames
        .write_all(payload)
        .and_then(|()| frames.flush())
        .expect("a growing buffer takes everything");
    out
}
