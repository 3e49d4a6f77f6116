//! The writers. Each finds out its whole output first, then asks for room once.

use turmyshge::steps::{StepRefusal, TType, WriteCall, WriteStep};
use turmyshge::Kind;

use super::number::one_nan;
use super::{header, refuse, MOST_STRUCTS};

/// The most bytes in a name, text or payload.
const LONGEST: usize = 0x7fff_ffff;

/// A value (the new struct depth, or 0) and the place after what was written.
type Written = Result<(u64, usize), StepRefusal>;

/// Makes a write: where it may start and how deep it may be, what it is told, the step, the room.
pub fn write(call: &WriteCall<'_>, out: &mut [u8]) -> Written {
    let at = call.place;
    if at > out.len() {
        return refuse(Kind::StartBeyond, at);
    }
    if matches!(call.step, WriteStep::StructBegin | WriteStep::StructEnd) {
        return depth(call);
    }
    told(call)?;
    let bits = call.number;
    match call.step {
        WriteStep::MessageBegin => message(call, out),
        WriteStep::FieldBegin => field(call, out),
        WriteStep::FieldStop => put(out, at, &[&[0]]),
        WriteStep::Byte | WriteStep::I8 => put(out, at, &[&[bits as u8]]),
        WriteStep::Bool => put(out, at, &[&[u8::from(bits != 0)]]),
        WriteStep::I16 => put(out, at, &[&(bits as u16).to_be_bytes()]),
        WriteStep::I32 => put(out, at, &[&(bits as u32).to_be_bytes()]),
        WriteStep::I64 => put(out, at, &[&bits.to_be_bytes()]),
        WriteStep::Double => put(out, at, &[&one_nan(bits).to_be_bytes()]),
        WriteStep::Bytes | WriteStep::String => put(out, at, &[&length(call.text), call.text]),
        WriteStep::Uuid => put(out, at, &[call.text]),
        WriteStep::ListBegin | WriteStep::SetBegin => put(
            out,
            at,
            &[&[call.kind.byte()], &(bits as u32).to_be_bytes()],
        ),
        WriteStep::MapBegin => {
            let kinds = [call.kind.byte(), call.other.byte()];
            put(out, at, &[&kinds, &(bits as u32).to_be_bytes()])
        }
        WriteStep::Frame if call.text.is_empty() => Ok((0, at)),
        WriteStep::Frame => put(out, at, &[&length(call.text), call.text]),
        _ => Ok((0, at)),
    }
}

fn depth(call: &WriteCall<'_>) -> Written {
    if call.struct_depth > MOST_STRUCTS {
        return refuse(Kind::DepthBeyond, call.place);
    }
    let depth = match call.step {
        WriteStep::StructBegin => header::struct_begin(call.place, call.struct_depth, call.structs),
        _ => header::struct_end(call.place, call.struct_depth),
    }?;
    Ok((depth as u64, call.place))
}

/// Refuses what can't be written whatever the room: 16, then 17, then 13.
fn told(call: &WriteCall<'_>) -> Result<(), StepRefusal> {
    let is_name = matches!(call.step, WriteStep::MessageBegin | WriteStep::String);
    let is_sized = is_name || matches!(call.step, WriteStep::Bytes | WriteStep::Frame);
    if is_sized && call.text.len() > LONGEST {
        return refuse(Kind::TooLong, call.place);
    }
    let id_missing =
        call.step == WriteStep::FieldBegin && call.absent.first && call.kind != TType::Stop;
    let type_missing =
        call.step == WriteStep::MapBegin && (call.absent.first || call.absent.second);
    if id_missing || type_missing {
        return refuse(Kind::Missing, call.place);
    }
    if is_name && std::str::from_utf8(call.text).is_err() {
        return refuse(Kind::NotUtf8, 0);
    }
    Ok(())
}

fn length(text: &[u8]) -> [u8; 4] {
    (text.len() as u32).to_be_bytes()
}

fn message(call: &WriteCall<'_>, out: &mut [u8]) -> Written {
    let sequence = (call.number as u32).to_be_bytes();
    let size = length(call.text);
    if call.strict {
        let head = [0x80, 0x01, 0x00, call.message as u8];
        put(out, call.place, &[&head, &size, call.text, &sequence])
    } else {
        put(
            out,
            call.place,
            &[&size, call.text, &[call.message as u8], &sequence],
        )
    }
}

fn field(call: &WriteCall<'_>, out: &mut [u8]) -> Written {
    let id = (call.number as u16).to_be_bytes();
    let id: &[u8] = if call.absent.first { &[] } else { &id };
    put(out, call.place, &[&[call.kind.byte()], id])
}

/// Puts all the parts, or none.
fn put(out: &mut [u8], place: usize, parts: &[&[u8]]) -> Written {
    let needed: usize = parts.iter().map(|part| part.len()).sum();
    if out.len() - place < needed {
        return refuse(Kind::OutputFull, place);
    }
    let mut at = place;
    for part in parts {
        out[at..at + part.len()].copy_from_slice(part);
        at += part.len();
    }
    Ok((0, at))
}
