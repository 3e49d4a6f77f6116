//! Single reads and writes: what is written reads back, and each refusal that the skip can't give is given once. Only
//! 16 is left out: it takes a text of 2,147,483,648 bytes.
#![cfg(feature = "steps")]

use turmyshge::steps::{self, Absent, MessageType, ReadCall, ReadStep, StepRefusal, StepType};
use turmyshge::steps::{WriteCall, WriteStep};
use turmyshge::{Kind, Limits, TType};

fn refused<T>(kind: Kind, place: usize) -> Result<T, StepRefusal> {
    Err(StepRefusal { kind, place })
}

#[test]
fn numbers_read_back() {
    let mut out = [0xee; 24];
    let at = steps::write_i16(&mut out, 0, -2).unwrap();
    let at = steps::write_i32(&mut out, at, i32::MIN).unwrap();
    let at = steps::write_i64(&mut out, at, 1 << 40).unwrap();
    let end = steps::write_double(&mut out, at, 98.75).unwrap();
    assert_eq!((end, out[end]), (22, 0xee));
    assert_eq!(steps::read_i16(&out, 0), Ok((-2, 2)));
    assert_eq!(steps::read_i32(&out, 2), Ok((i32::MIN, 6)));
    assert_eq!(steps::read_i64(&out, 6), Ok((1 << 40, 14)));
    assert_eq!(steps::read_double(&out, 14), Ok((98.75, 22)));
}

#[test]
fn a_message_reads_back() {
    let mut out = [0; 32];
    let end = steps::write_message_begin(&mut out, 0, true, "ab", MessageType::Call, 7).unwrap();
    assert_eq!(
        out[..end],
        [0x80, 1, 0, 1, 0, 0, 0, 2, b'a', b'b', 0, 0, 0, 7]
    );
    let (message, read) = steps::read_message_begin(&out, 0, true, Limits::DEFAULT).unwrap();
    assert_eq!((message.name, message.kind), ("ab", MessageType::Call));
    assert_eq!((message.sequence, read), (7, end));
}

#[test]
fn headers_read_back() {
    let mut out = [0; 32];
    let at = steps::write_field_begin(&mut out, 0, TType::Map, Some(9)).unwrap();
    let end = steps::write_map_begin(&mut out, at, TType::String, TType::Uuid, 3).unwrap();
    assert_eq!(steps::read_field_begin(&out, 0), Ok(((TType::Map, 9), at)));
    let map = steps::read_map_begin(&out, at, Limits::DEFAULT);
    assert_eq!(map, Ok(((TType::String, TType::Uuid, 3), end)));
}

/// A type goes to the archive by a number that is not its byte: each comes out as its byte, and comes back as itself.
#[test]
fn every_type_is_written_as_its_byte() {
    for kind in StepType::ALL {
        let mut out = [0xee; 6];
        let call = WriteCall {
            kind,
            other: kind,
            ..WriteCall::new(WriteStep::MapBegin, 0)
        };
        assert_eq!(steps::write(&call, &mut out).unwrap().refusal, None);
        assert_eq!(out, [kind.byte(), kind.byte(), 0, 0, 0, 0]);
        let back = TType::from_byte(kind.byte()).unwrap();
        let map = steps::read_map_begin(&out, 0, Limits::DEFAULT);
        assert_eq!(map, Ok(((back, back, 0), 6)));
    }
    for message in MessageType::ALL {
        let mut out = [0; 12];
        steps::write_message_begin(&mut out, 0, true, "", message, 0).unwrap();
        assert_eq!(out[3], message as u8);
    }
}

/// A type is asked for by what it is: the skip and the scalar read of each pass as many bytes as it takes.
#[test]
fn every_type_is_asked_for_as_itself() {
    for kind in TType::ALL {
        let call = ReadCall::new(ReadStep::Skip, &[0; 16], 0).of(kind);
        let by_byte = turmyshge::skip(&[0; 16], 0, 64, kind);
        let end = steps::read(&call).into_result().ok().map(|(_, end)| end);
        assert_eq!(end, by_byte.ok().map(|passed| passed.end));
        let scalar = steps::read(&ReadCall {
            step: ReadStep::Scalar,
            ..call
        });
        if let Ok((values, _)) = scalar.into_result() {
            assert_eq!(values[0], u64::from(kind.byte()));
        }
    }
    let utf7 = ReadCall::new(ReadStep::Skip, &[0; 16], 0).of(StepType::Utf7);
    assert_eq!(steps::read(&utf7).refusal, Some(Kind::WrongType));
}

#[test]
fn a_frame_reads_back() {
    let mut out = [0; 8];
    let end = steps::write_frame(&mut out, 1, b"xyz").unwrap();
    assert_eq!(
        steps::read_frame(&out, 1, Limits::DEFAULT),
        Ok((Some(5..8), end))
    );
    assert_eq!(
        steps::read_frame(&out, end, Limits::DEFAULT),
        Ok((None, end))
    );
}

#[test]
fn reads_are_refused() {
    let none = Limits::NONE;
    let low = Limits {
        container: Some(1),
        frame: Some(1),
        message: Some(0),
        ..none
    };
    let list = [3, 0, 0, 0, 2];
    assert_eq!(
        steps::read_message_begin(&[0; 4], 0, true, none),
        refused(Kind::BadVersion, 0)
    );
    assert_eq!(
        steps::read_message_begin(&[0x80, 1, 0, 5], 0, true, none),
        refused(Kind::BadMessageType, 3)
    );
    assert_eq!(
        steps::read_list_begin(&list, 0, low),
        refused(Kind::ContainerLimit, 1)
    );
    assert_eq!(
        steps::read_string(&[0, 0, 0, 1, 0xff], 0, none),
        refused(Kind::NotUtf8, 4)
    );
    assert_eq!(
        steps::read_frame(&[0, 0, 0, 2], 0, low),
        refused(Kind::FrameLimit, 0)
    );
    let build = steps::read(&ReadCall::new(ReadStep::Limits, &[], 0).under(low));
    assert_eq!(build.into_result(), refused(Kind::FrameAboveMessage, 0));
    let end = steps::read(&ReadCall::new(ReadStep::StructEnd, &[], 0));
    assert_eq!(end.into_result(), refused(Kind::NoStructOpen, 0));
}

#[test]
fn starts_and_struct_depths_beyond_are_refused() {
    assert_eq!(steps::read_i16(&[0; 4], 5), refused(Kind::StartBeyond, 5));
    let call = ReadCall {
        struct_depth: 65_536,
        ..ReadCall::new(ReadStep::StructBegin, &[0; 4], 2)
    };
    assert_eq!(
        steps::read(&call).into_result(),
        refused(Kind::DepthBeyond, 2)
    );
}

#[test]
fn refused_writes_change_nothing() {
    let mut out = [0xee; 4];
    assert_eq!(
        steps::write_i64(&mut out, 1, 0),
        refused(Kind::OutputFull, 1)
    );
    assert_eq!(
        steps::write_field_begin(&mut out, 1, TType::I32, None),
        refused(Kind::Missing, 1)
    );
    let not_utf8 = WriteCall {
        text: &[0xff],
        ..WriteCall::new(WriteStep::String, 0)
    };
    let answer = steps::write(&not_utf8, &mut out).unwrap();
    assert_eq!(answer.into_result(), refused(Kind::NotUtf8, 0));
    let no_value_type = WriteCall {
        absent: Absent {
            first: false,
            second: true,
        },
        ..WriteCall::new(WriteStep::MapBegin, 2)
    };
    let answer = steps::write(&no_value_type, &mut out).unwrap();
    assert_eq!(answer.into_result(), refused(Kind::Missing, 2));
    assert_eq!(out, [0xee; 4]);
}
