//! Writes by the crate.

use std::panic::{catch_unwind, AssertUnwindSafe};

use thrift::protocol::{
    TBinaryOutputProtocol, TFieldIdentifier, TListIdentifier, TMapIdentifier, TMessageIdentifier,
    TMessageType, TOutputProtocol, TSetIdentifier, TStructIdentifier,
};
use thrift::transport::TWriteTransport;
use turmyshge::steps::{Answer, Limits, WriteCall, WriteStep};

use super::lent::Room;
use super::reads::{config, depth_of};
use super::types::ttype;
use super::{frames, refusals, Theirs};

/// The crate's binary writer.
pub type Writer<T> = TBinaryOutputProtocol<T>;

/// A fresh writer at the call's place in `out`.
pub(super) fn fresh<'a>(out: &'a mut [u8], call: &WriteCall<'_>) -> Writer<Room<'a>> {
    let limits = Limits {
        structs: call.structs,
        ..Limits::DEFAULT
    };
    let rest = &mut out[call.place..];
    Writer::with_config(Room { rest }, call.strict, config(&limits))
}

fn no_name() -> TStructIdentifier {
    TStructIdentifier::new("")
}

/// Makes the write that `call` describes into `out`.
pub fn write(call: &WriteCall<'_>, out: &mut [u8]) -> Theirs {
    let is_text = matches!(call.step, WriteStep::MessageBegin | WriteStep::String);
    // above 31 bits the crate is asked for one step alone: the others copy the text or look at all of it
    let too_much = call.step != WriteStep::Bytes && i32::try_from(call.text.len()).is_err();
    let out_of_reach = call.place > out.len()
        || too_much
        || (is_text && std::str::from_utf8(call.text).is_err())
        || call.struct_depth > 65_536;
    if out_of_reach {
        return Theirs::NoCall;
    }
    if call.step == WriteStep::Frame {
        return write_frame(call, out);
    }
    let length = out.len();
    let uses_structs = matches!(call.step, WriteStep::StructBegin | WriteStep::StructEnd);
    let structs = if uses_structs { call.struct_depth } else { 0 };
    let mut writer = fresh(out, call);
    // no fresh writer gets to more than its limit
    if (0..structs).any(|_| writer.write_struct_begin(&no_name()).is_err()) {
        return Theirs::NoCall;
    }
    let Ok(written) = catch_unwind(AssertUnwindSafe(|| put(&mut writer, call))) else {
        return Theirs::Panicked;
    };
    told(call, written, &writer, length)
}

/// What came of a write by this writer into a buffer of `length` bytes, in the port's terms.
pub(super) fn told(
    call: &WriteCall<'_>,
    written: thrift::Result<()>,
    writer: &Writer<Room<'_>>,
    length: usize,
) -> Theirs {
    let end = length - writer.transport.rest.len();
    match written {
        Ok(()) => Theirs::accepted(end, [new_depth(call, writer), 0, 0, 0]),
        Err(error) => match refusals::refusal(&error) {
            Some(refusal) => Theirs::Answered(Answer::refused(refusal, call.place)),
            None => Theirs::Strange(format!("{error:?}")),
        },
    }
}

/// The depth after a struct's begin or end; no other step answers a value.
fn new_depth(call: &WriteCall<'_>, writer: &Writer<Room<'_>>) -> u64 {
    match call.step {
        WriteStep::StructBegin | WriteStep::StructEnd => depth_of(writer),
        _ => 0,
    }
}

fn write_frame(call: &WriteCall<'_>, out: &mut [u8]) -> Theirs {
    let frame = frames::written(call.text);
    let end = call.place + frame.len();
    match out.get_mut(call.place..end) {
        None => Theirs::NoCall,
        Some(part) => {
            part.copy_from_slice(&frame);
            Theirs::accepted(end, [0; 4])
        }
    }
}

/// Makes the write on a writer of any kind.
pub fn put<T: TWriteTransport>(writer: &mut Writer<T>, call: &WriteCall<'_>) -> thrift::Result<()> {
    put_number(writer, call)
        .or_else(|| put_text(writer, call))
        .unwrap_or_else(|| put_header(writer, call))
}

fn put_number<T: TWriteTransport>(
    writer: &mut Writer<T>,
    call: &WriteCall<'_>,
) -> Option<thrift::Result<()>> {
    let bits = call.number;
    Some(match call.step {
        WriteStep::Byte => writer.write_byte(bits as u8),
        WriteStep::Bool => writer.write_bool(bits != 0),
        WriteStep::I8 => writer.write_i8(bits as i8),
        WriteStep::I16 => writer.write_i16(bits as i16),
        WriteStep::I32 => writer.write_i32(bits as i32),
        WriteStep::I64 => writer.write_i64(bits as i64),
        WriteStep::Double => writer.write_double(f64::from_bits(bits)),
        _ => return None,
    })
}

fn put_text<T: TWriteTransport>(
    writer: &mut Writer<T>,
    call: &WriteCall<'_>,
) -> Option<thrift::Result<()>> {
    Some(match call.step {
        WriteStep::Bytes => writer.write_bytes(call.text),
        WriteStep::String => writer.write_string(text_of(call)),
        WriteStep::Uuid => {
            let bytes = call.text.try_into().expect("a UUID has 16 bytes");
            writer.write_uuid(&uuid::Uuid::from_bytes(bytes))
        }
        WriteStep::MessageBegin => {
            let kind =
                TMessageType::try_from(call.message as u8).expect("a message type is 1 to 4");
            let message = TMessageIdentifier::new(text_of(call), kind, call.number as i32);
            writer.write_message_begin(&message)
        }
        _ => return None,
    })
}

fn text_of<'a>(call: &WriteCall<'a>) -> &'a str {
    std::str::from_utf8(call.text).expect("tested before")
}

fn put_header<T: TWriteTransport>(
    writer: &mut Writer<T>,
    call: &WriteCall<'_>,
) -> thrift::Result<()> {
    let size = call.number as i32;
    match call.step {
        WriteStep::FieldBegin => {
            let id = (!call.absent.first).then_some(call.number as i16);
            writer.write_field_begin(&TFieldIdentifier {
                name: None,
                field_type: ttype(call.kind),
                id,
            })
        }
        WriteStep::ListBegin => {
            writer.write_list_begin(&TListIdentifier::new(ttype(call.kind), size))
        }
        WriteStep::SetBegin => writer.write_set_begin(&TSetIdentifier::new(ttype(call.kind), size)),
        WriteStep::MapBegin => writer.write_map_begin(&TMapIdentifier {
            key_type: (!call.absent.first).then(|| ttype(call.kind)),
            value_type: (!call.absent.second).then(|| ttype(call.other)),
            size,
        }),
        _ => put_bare(writer, call.step),
    }
}

/// The steps that are told nothing.
fn put_bare<T: TWriteTransport>(writer: &mut Writer<T>, step: WriteStep) -> thrift::Result<()> {
    match step {
        WriteStep::StructBegin => writer.write_struct_begin(&no_name()),
        WriteStep::StructEnd => writer.write_struct_end(),
        WriteStep::FieldStop => writer.write_field_stop(),
        WriteStep::FieldEnd => writer.write_field_end(),
        WriteStep::MessageEnd => writer.write_message_end(),
        WriteStep::ListEnd => writer.write_list_end(),
        WriteStep::SetEnd => writer.write_set_end(),
        WriteStep::MapEnd => writer.write_map_end(),
        other => unreachable!("{other:?} is told something"),
    }
}
