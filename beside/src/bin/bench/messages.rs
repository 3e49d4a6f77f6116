//! Whole messages, written and read one step at a time.

use beside::plain::Plain;
use beside::port::Port;
use beside::published::{put, take, Writer};
use thrift::protocol::TBinaryInputProtocol;
use turmyshge::steps::{MessageType, ReadCall, ReadStep, TType, WriteCall, WriteStep};

use super::timing::{row, Contender, Options, Row};

/// Messages in a buffer, so that one run is long enough to time.
const MESSAGES: usize = 1_000;

/// The port that this build reads and writes with, if it has one.
pub fn port() -> Option<&'static dyn Port> {
    #[cfg(feature = "steps")]
    return Some(&beside::port::Probe);
    #[cfg(not(feature = "steps"))]
    None
}

/// One order: a header, then fields of each kind.
fn order() -> Vec<WriteCall<'static>> {
    let bare = |step| WriteCall::new(step, 0);
    let number = |step, number| WriteCall {
        number,
        ..bare(step)
    };
    let text = |step, text| WriteCall { text, ..bare(step) };
    let field = |kind: TType, number| WriteCall {
        kind: kind.into(),
        number,
        ..bare(WriteStep::FieldBegin)
    };
    vec![
        WriteCall {
            text: b"placeOrder",
            message: MessageType::Call,
            number: 7,
            ..bare(WriteStep::MessageBegin)
        },
        field(TType::String, 1),
        text(WriteStep::String, b"ACCOUNT-0042"),
        field(TType::I64, 2),
        number(WriteStep::I64, 2_500),
        field(TType::Double, 3),
        number(WriteStep::Double, 98.75_f64.to_bits()),
        field(TType::Uuid, 5),
        text(WriteStep::Uuid, b"0123456789abcdef"),
        field(TType::List, 6),
        WriteCall {
            kind: TType::I32.into(),
            number: 2,
            ..bare(WriteStep::ListBegin)
        },
        number(WriteStep::I32, 11),
        number(WriteStep::I32, 12),
        bare(WriteStep::FieldStop),
    ]
}

/// The read that takes what a write has put.
fn reads(writes: &[WriteCall<'_>]) -> Vec<ReadStep> {
    let step = |write: &WriteCall<'_>| match write.step {
        WriteStep::MessageBegin => ReadStep::MessageBegin,
        WriteStep::String => ReadStep::String,
        WriteStep::I32 => ReadStep::I32,
        WriteStep::I64 => ReadStep::I64,
        WriteStep::Double => ReadStep::Double,
        WriteStep::Uuid => ReadStep::Uuid,
        WriteStep::ListBegin => ReadStep::ListBegin,
        _ => ReadStep::FieldBegin,
    };
    writes.iter().map(step).collect()
}

fn write_all(port: &dyn Port, writes: &[WriteCall<'_>], out: &mut [u8]) -> u64 {
    let mut place = 0;
    for _ in 0..MESSAGES {
        for call in writes {
            let answer = port.write(&WriteCall { place, ..*call }, out);
            place = answer.expect("a port that writes").place;
        }
    }
    place as u64
}

fn write_all_by_the_crate(writes: &[WriteCall<'_>], out: &mut [u8]) -> u64 {
    let length = out.len();
    let mut writer = Writer::new(out, true);
    for _ in 0..MESSAGES {
        for call in writes {
            put(&mut writer, call).expect("the buffer is long enough");
        }
    }
    (length - writer.transport.len()) as u64
}

fn read_all(port: &dyn Port, steps: &[ReadStep], bytes: &[u8]) -> u64 {
    let mut place = 0;
    for _ in 0..MESSAGES {
        for step in steps {
            let answer = port.read(&ReadCall::new(*step, bytes, place));
            place = answer.expect("a port that reads").place;
        }
    }
    place as u64
}

fn read_all_by_the_crate(steps: &[ReadStep], bytes: &[u8]) -> u64 {
    let mut reader = TBinaryInputProtocol::new(bytes, true);
    for _ in 0..MESSAGES {
        for step in steps {
            take(&mut reader, *step).expect("what was written is read");
        }
    }
    (bytes.len() - reader.transport.len()) as u64
}

/// A row for writing and one for reading, for each message.
pub fn rows(options: &Options) -> Vec<Row> {
    let writes = order();
    let steps = reads(&writes);
    let mut outs = [(); 3].map(|()| vec![0; 256 * MESSAGES]);
    let length = write_all(&Plain, &writes, &mut outs[0]) as usize;
    let bytes = outs[0][..length].to_vec();
    let [theirs, ours, plain] = &mut outs;
    let written = row(
        format!("write a message of {} bytes", length / MESSAGES),
        MESSAGES,
        options,
        Box::new(|| write_all_by_the_crate(&writes, theirs)),
        port().map(|port| -> Contender<'_> { Box::new(|| write_all(port, &writes, ours)) }),
        Box::new(|| write_all(&Plain, &writes, plain)),
    );
    let read = row(
        "read it",
        MESSAGES,
        options,
        Box::new(|| read_all_by_the_crate(&steps, &bytes)),
        port().map(|port| -> Contender<'_> { Box::new(|| read_all(port, &steps, &bytes)) }),
        Box::new(|| read_all(&Plain, &steps, &bytes)),
    );
    vec![written, read]
}
