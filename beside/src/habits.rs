//! Differences that no single call of a fresh reader shows: what the crate does across frames and after a refusal.
//! Each is shown on its smallest input, so that the list of differences stays true.

use std::io::Read;

use thrift::protocol::{TBinaryInputProtocol, TInputProtocol, TType};
use thrift::transport::TFramedReadTransport;

/// A habit of the crate, and whether it has it.
type Habit = (&'static str, fn() -> bool);

const HABITS: [Habit; 4] = [
    (
        "a read past a frame's end goes on into the next frame",
        reads_on,
    ),
    (
        "a read of no bytes from the framed reader takes a whole frame",
        takes_a_frame_for_nothing,
    ),
    (
        "a refused read keeps the bytes that it consumed",
        keeps_consumed,
    ),
    (
        "a refused skip keeps the struct depth that it raised",
        keeps_raised,
    ),
];

/// Two frames of two bytes; an i32 takes both, and nothing is left.
fn reads_on() -> bool {
    let frames: &[u8] = &[0, 0, 0, 2, 1, 2, 0, 0, 0, 2, 3, 4];
    let mut reader = TBinaryInputProtocol::new(TFramedReadTransport::new(frames), true);
    reader.read_i32().is_ok_and(|value| value == 0x0102_0304)
}

fn takes_a_frame_for_nothing() -> bool {
    let mut frames: &[u8] = &[0, 0, 0, 1, 9];
    let read = TFramedReadTransport::new(&mut frames).read(&mut []);
    read.is_ok_and(|length| length == 0) && frames.is_empty()
}

/// A list header whose size is negative: its type and size are gone after the refusal.
fn keeps_consumed() -> bool {
    let bytes: &[u8] = &[3, 0xff, 0xff, 0xff, 0xff];
    let mut reader = TBinaryInputProtocol::new(bytes, true);
    reader.read_list_begin().is_err() && reader.transport.is_empty()
}

/// A struct cut short: the depth that its begin raised is still raised.
fn keeps_raised() -> bool {
    let bytes: &[u8] = &[8];
    let mut reader = TBinaryInputProtocol::new(bytes, true);
    let refused = reader.skip_till_depth(TType::Struct, 1).is_err();
    refused && format!("{reader:?}").ends_with("recursion_depth: 1 }")
}

/// Says of each habit whether the crate has it.
pub fn all_shown() -> bool {
    HABITS.iter().fold(true, |all, (words, shows)| {
        let shown = shows();
        let verdict = if shown { "shown" } else { "NOT SHOWN" };
        println!("{verdict}: {words}");
        all && shown
    })
}
