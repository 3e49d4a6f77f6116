//! Reads by the crate.

use std::fmt::{self, Write as _};

use thrift::protocol::{TBinaryInputProtocol, TInputProtocol, TMessageIdentifier, TMessageType};
use thrift::TConfiguration;
use turmyshge::steps::{Answer, Limits, ReadCall, ReadStep, TType};
use turmyshge::Kind;

use super::counting::Counting;
use super::lent::Lent;
use super::types::{byte, ttype};
use super::{frames, refusals, Theirs};

/// The crate's binary reader, counting.
type Reader<'a> = Counting<'a>;

/// The crate's record of the limits that a reader looks at.
pub(super) fn config(limits: &Limits) -> TConfiguration {
    TConfiguration::builder()
        .max_message_size(limits.message)
        .max_frame_size(None)
        .max_recursion_depth(limits.structs)
        .max_container_size(limits.container)
        .max_string_size(limits.string)
        .build()
        .expect("no frame limit, so none above the message limit")
}

/// A fresh reader at the call's place.
#[inline]
pub(super) fn fresh<'a>(call: &ReadCall<'a>) -> Reader<'a> {
    let lent = Lent::new(call.bytes, call.place);
    let config = config(&call.limits);
    Reader::new(TBinaryInputProtocol::with_config(lent, call.strict, config))
}

/// The struct depth that the crate keeps to itself, as it prints it: last of all.
pub(super) fn depth_of(keeper: &impl fmt::Debug) -> u64 {
    // with room for all of it from the start, as this is asked some hundred million times
    let mut printed = String::with_capacity(512);
    let _ = write!(printed, "{keeper:?}");
    let without_end = printed.trim_end_matches(" }");
    let before = without_end.trim_end_matches(|c: char| c.is_ascii_digit());
    assert!(before.ends_with("recursion_depth: "), "{printed}");
    let digits = &without_end[before.len()..];
    digits.parse().expect("the crate prints its depth")
}

fn refused(error: &thrift::Error, lent: &Lent<'_>) -> Theirs {
    match refusals::refusal(error) {
        Some(refusal) => Theirs::Answered(Answer::refused(refusal, refusals::place(refusal, lent))),
        None => Theirs::Strange(format!("{error:?}")),
    }
}

/// Makes the read that `call` describes.
pub fn read(call: &ReadCall<'_>) -> Theirs {
    let uses_structs = matches!(
        call.step,
        ReadStep::StructBegin | ReadStep::StructEnd | ReadStep::Skip
    );
    let out_of_reach = call.place > call.bytes.len()
        || (call.step == ReadStep::Skip && i8::try_from(call.depth).is_err())
        || (uses_structs && call.struct_depth > 65_536);
    if out_of_reach {
        return Theirs::NoCall;
    }
    match call.step {
        ReadStep::Frame => frames::read(call.bytes, call.place),
        ReadStep::Limits => build(&call.limits),
        ReadStep::Type => read_type(call),
        _ => {
            let structs = if uses_structs { call.struct_depth } else { 0 };
            let mut reader = fresh(call);
            // no fresh reader gets to more than its limit
            if (0..structs).any(|_| reader.read_struct_begin().is_err()) {
                return Theirs::NoCall;
            }
            read_by(call, &mut reader)
        }
    }
}

/// Makes a read or a skip by a reader that stands where the call starts, with the call's structs open.
pub(super) fn read_by(call: &ReadCall<'_>, reader: &mut Reader<'_>) -> Theirs {
    match call.step {
        ReadStep::Skip => skip(call, reader),
        _ => read_one(call, reader),
    }
}

fn build(limits: &Limits) -> Theirs {
    let built = TConfiguration::builder()
        .max_message_size(limits.message)
        .max_frame_size(limits.frame)
        .build();
    match built {
        Ok(_) => Theirs::accepted(0, [0; 4]),
        Err(error) => match refusals::refusal(&error) {
            Some(refusal) => Theirs::Answered(Answer::refused(refusal, 0)),
            None => Theirs::Strange(format!("{error:?}")),
        },
    }
}

/// The crate keeps its type read to itself; a field header begins with one.
fn read_type(call: &ReadCall<'_>) -> Theirs {
    let Some(first) = call.bytes.get(call.place) else {
        let short = ReadCall {
            step: ReadStep::Byte,
            ..*call
        };
        return read(&short);
    };
    let header = [*first, 0, 0];
    let mut reader = TBinaryInputProtocol::new(Lent::new(&header, 0), true);
    match reader.read_field_begin() {
        Ok(field) => Theirs::accepted(call.place + 1, [byte(field.field_type), 0, 0, 0]),
        Err(error) => match refusals::refusal(&error) {
            Some(refusal) => Theirs::Answered(Answer::refused(refusal, call.place)),
            None => Theirs::Strange(format!("{error:?}")),
        },
    }
}

fn skip(call: &ReadCall<'_>, reader: &mut Reader<'_>) -> Theirs {
    let depth = i8::try_from(call.depth).expect("tested before");
    let before = reader.begun;
    let skipped = reader.skip_till_depth(ttype(call.kind), depth);
    let begun = reader.begun - before;
    let lent = &reader.inner.transport;
    let Err(error) = skipped else {
        return Theirs::accepted(lent.at, [begun, reader.open, 0, 0]);
    };
    let theirs = refused(&error, lent);
    let Theirs::Answered(answer) = theirs else {
        return theirs;
    };
    // these two end a value that was begun by no call
    let silent = matches!(answer.refusal, Some(Kind::SkipDepth | Kind::WrongType));
    Theirs::Answered(Answer {
        values: [begun + u64::from(silent), 0, 0, 0],
        ..answer
    })
}

fn read_one(call: &ReadCall<'_>, reader: &mut Reader<'_>) -> Theirs {
    let values = number(call.step, reader)
        .or_else(|| scalar(call, reader))
        .or_else(|| part(call, reader))
        .or_else(|| header(call.step, reader));
    let lent = &reader.inner.transport;
    match values {
        None => Theirs::NoCall,
        Some(Ok(values)) => Theirs::accepted(lent.at, values),
        Some(Err(error)) => refused(&error, lent),
    }
}

type Values = thrift::Result<[u64; 4]>;

fn number(step: ReadStep, reader: &mut Reader<'_>) -> Option<Values> {
    let bits = match step {
        ReadStep::Byte => reader.read_byte().map(u64::from),
        ReadStep::Bool => reader.read_bool().map(u64::from),
        ReadStep::I8 => reader.read_i8().map(|v| u64::from(v as u8)),
        ReadStep::I16 => reader.read_i16().map(|v| u64::from(v as u16)),
        ReadStep::I32 => reader.read_i32().map(|v| u64::from(v as u32)),
        ReadStep::I64 => reader.read_i64().map(|v| v as u64),
        ReadStep::Double => reader.read_double().map(f64::to_bits),
        ReadStep::MessageType => reader
            .read_byte()
            .and_then(TMessageType::try_from)
            .map(|kind| u64::from(u8::from(kind))),
        _ => return None,
    };
    Some(bits.map(|v| [v, 0, 0, 0]))
}

/// The crate has no read by type; its scalars are read by these.
fn scalar(call: &ReadCall<'_>, reader: &mut Reader<'_>) -> Option<Values> {
    let step = match (call.step, call.kind.wire()) {
        (ReadStep::Scalar, Some(TType::Bool)) => ReadStep::Bool,
        (ReadStep::Scalar, Some(TType::I08)) => ReadStep::I8,
        (ReadStep::Scalar, Some(TType::I16)) => ReadStep::I16,
        (ReadStep::Scalar, Some(TType::I32)) => ReadStep::I32,
        (ReadStep::Scalar, Some(TType::I64)) => ReadStep::I64,
        (ReadStep::Scalar, Some(TType::Double)) => ReadStep::Double,
        _ => return None,
    };
    let kind = u64::from(call.kind.byte());
    number(step, reader).map(|values| values.map(|[v, ..]| [kind, v, 0, 0]))
}

/// Where the body that the crate copied out stands: `after` bytes before the place that it has come to.
fn span(call: &ReadCall<'_>, body: &[u8], at: usize, after: usize) -> thrift::Result<[u64; 2]> {
    let end = at - after;
    let start = end - body.len();
    if call.bytes[start..end] != *body {
        return Err(thrift::Error::User(
            "a copy that is not what stands there".into(),
        ));
    }
    Ok([start as u64, end as u64])
}

fn part(call: &ReadCall<'_>, reader: &mut Reader<'_>) -> Option<Values> {
    let body = match call.step {
        ReadStep::Bytes => reader.read_bytes(),
        ReadStep::String => reader.read_string().map(String::into_bytes),
        ReadStep::Uuid => reader.read_uuid().map(|uuid| uuid.as_bytes().to_vec()),
        ReadStep::MessageBegin => {
            let message = reader.read_message_begin();
            return Some(message.and_then(|m| message_values(call, &m, reader.inner.transport.at)));
        }
        _ => return None,
    };
    let at = reader.inner.transport.at;
    let found = body.and_then(|body| span(call, &body, at, 0));
    Some(found.map(|[start, end]| [start, end, 0, 0]))
}

fn message_values(call: &ReadCall<'_>, message: &TMessageIdentifier, at: usize) -> Values {
    let versioned = call.bytes[call.place] >= 0x80;
    let after_name = if versioned { 4 } else { 5 };
    let [start, end] = span(call, message.name.as_bytes(), at, after_name)?;
    let kind = u64::from(u8::from(message.message_type));
    let sequence = u64::from(message.sequence_number as u32);
    Ok([start, end, kind, sequence])
}

fn header(step: ReadStep, reader: &mut Reader<'_>) -> Option<Values> {
    let size = |n: i32| u64::from(n as u32);
    let nothing = |()| [0; 4];
    Some(match step {
        ReadStep::FieldBegin => reader.read_field_begin().map(|f| {
            let id = f.id.expect("a field that was read has an id");
            [byte(f.field_type), u64::from(id as u16), 0, 0]
        }),
        ReadStep::ListBegin => reader
            .read_list_begin()
            .map(|l| [byte(l.element_type), size(l.size), 0, 0]),
        ReadStep::SetBegin => reader
            .read_set_begin()
            .map(|s| [byte(s.element_type), size(s.size), 0, 0]),
        ReadStep::MapBegin => reader.read_map_begin().map(|m| {
            let kinds =
                [m.key_type, m.value_type].map(|k| k.expect("a map that was read has both"));
            [byte(kinds[0]), byte(kinds[1]), size(m.size), 0]
        }),
        ReadStep::StructBegin => reader.read_struct_begin().map(|_| depth_values(reader)),
        ReadStep::StructEnd => reader.read_struct_end().map(|()| depth_values(reader)),
        ReadStep::MessageEnd => reader.read_message_end().map(nothing),
        ReadStep::FieldEnd => reader.read_field_end().map(nothing),
        ReadStep::ListEnd => reader.read_list_end().map(nothing),
        ReadStep::SetEnd => reader.read_set_end().map(nothing),
        ReadStep::MapEnd => reader.read_map_end().map(nothing),
        _ => return None,
    })
}

fn depth_values(reader: &Reader<'_>) -> [u64; 4] {
    [depth_of(&reader.inner), 0, 0, 0]
}
