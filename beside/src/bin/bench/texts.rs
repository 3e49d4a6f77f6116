//! Strings read, for the check that they are UTF-8.

use beside::plain::Plain;
use beside::port::Port;
use beside::published::take;
use thrift::protocol::TBinaryInputProtocol;
use turmyshge::steps::{ReadCall, ReadStep};

use super::messages::port;
use super::timing::{row, Contender, Options, Row};

/// Strings in a buffer, so that one run is long enough to time.
const STRINGS: usize = 2_000;

/// A row for names of each length.
pub fn rows(options: &Options) -> Vec<Row> {
    let mixed: &[u8] = "aé–".as_bytes();
    [8, 64, 1_024]
        .into_iter()
        .flat_map(|length| {
            let ascii: Vec<u8> = (0..length).map(|i| b'a' + (i % 26) as u8).collect();
            // whole characters only, filled up with one-byte ones
            let mut other = mixed.repeat(length / mixed.len());
            other.resize(length, b'z');
            [("an ASCII", ascii), ("a mixed", other)].map(|(kind, text)| {
                text_row(
                    &format!("read {kind} string of {length} bytes"),
                    &text,
                    options,
                )
            })
        })
        .collect()
}

fn text_row(name: &str, text: &[u8], options: &Options) -> Row {
    let one = [&(text.len() as u32).to_be_bytes()[..], text].concat();
    let bytes = one.repeat(STRINGS);
    row(
        name,
        STRINGS,
        options,
        Box::new(|| by_the_crate(&bytes)),
        port().map(|port| -> Contender<'_> { Box::new(|| by_a_port(port, &bytes)) }),
        Box::new(|| by_a_port(&Plain, &bytes)),
    )
}

fn by_a_port(port: &dyn Port, bytes: &[u8]) -> u64 {
    let mut place = 0;
    for _ in 0..STRINGS {
        let answer = port.read(&ReadCall::new(ReadStep::String, bytes, place));
        place = answer.expect("a port that reads").place;
    }
    place as u64
}

fn by_the_crate(bytes: &[u8]) -> u64 {
    let mut reader = TBinaryInputProtocol::new(bytes, true);
    for _ in 0..STRINGS {
        take(&mut reader, ReadStep::String).expect("every string is UTF-8");
    }
    (bytes.len() - reader.transport.len()) as u64
}
