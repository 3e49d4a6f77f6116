//! Skips of whole bodies.

use beside::{plain, published};
use thrift::protocol::{TBinaryInputProtocol, TInputProtocol};
use turmyshge::{Skip, TType};

use super::bodies;
use super::timing::{row, Options, Row};

const DEPTH: usize = 64;

/// A row for each body.
pub fn rows(options: &Options) -> Vec<Row> {
    bodies::all()
        .iter()
        .map(|body| {
            let (bytes, kind) = (&body.bytes, body.kind);
            row(
                format!("{} ({} bytes)", body.name, bytes.len()),
                1,
                options,
                Box::new(|| by_the_crate(bytes, kind)),
                Some(Box::new(|| {
                    turmyshge::skip(bytes, 0, DEPTH, kind).map_or(0, |passed| passed.end as u64)
                })),
                Box::new(|| {
                    plain::skip_by_byte(bytes, 0, kind.byte(), &Skip::DEFAULT).place as u64
                }),
            )
        })
        .collect()
}

/// The crate over a plain slice, and the bytes that it has passed.
fn by_the_crate(bytes: &[u8], kind: TType) -> u64 {
    let mut reader = TBinaryInputProtocol::new(bytes, true);
    match reader.skip_till_depth(published::ttype(kind), DEPTH as i8) {
        Ok(()) => (bytes.len() - reader.transport.len()) as u64,
        Err(_) => 0,
    }
}
