//! The crate's errors by the refusals' numbers: kind and message text together, as a kind alone stands for several.

use thrift::{
    ApplicationErrorKind, Error, ProtocolError, ProtocolErrorKind, TransportError,
    TransportErrorKind,
};
use turmyshge::Kind;

use super::lent::Lent;

/// An error's kind, how its text begins and ends, and the refusal that it is.
type Row<K> = (K, &'static str, &'static str, Kind);

const TRANSPORT: [Row<TransportErrorKind>; 4] = {
    use TransportErrorKind as K;
    [
        (
            K::EndOfFile,
            "failed to fill whole buffer",
            "",
            Kind::ShortInput,
        ),
        (K::Unknown, "Negative frame size: ", "", Kind::NegativeSize),
        (K::Unknown, "Frame size ", "", Kind::FrameLimit),
        (
            K::Unknown,
            "failed to write whole buffer",
            "",
            Kind::OutputFull,
        ),
    ]
};

const PROTOCOL: [Row<ProtocolErrorKind>; 15] = {
    use ProtocolErrorKind as K;
    [
        (
            K::BadVersion,
            "received bad version: ",
            "",
            Kind::BadVersion,
        ),
        (
            K::InvalidData,
            "cannot convert ",
            " to TMessageType",
            Kind::BadMessageType,
        ),
        (
            K::InvalidData,
            "cannot convert ",
            " to TType",
            Kind::UnknownType,
        ),
        (
            K::InvalidData,
            "invalid utf-8 sequence of ",
            "",
            Kind::NotUtf8,
        ),
        (
            K::InvalidData,
            "incomplete utf-8 byte sequence ",
            "",
            Kind::NotUtf8,
        ),
        (
            K::NegativeSize,
            "Negative byte array size: ",
            "",
            Kind::NegativeSize,
        ),
        (
            K::NegativeSize,
            "Negative container size: ",
            "",
            Kind::NegativeSize,
        ),
        (K::SizeLimit, "Byte array size ", "", Kind::StringLimit),
        (K::SizeLimit, "Message name size ", "", Kind::StringLimit),
        (K::SizeLimit, "Container size ", "", Kind::ContainerLimit),
        (
            K::SizeLimit,
            "Container would require ",
            "",
            Kind::MessageLimit,
        ),
        (K::DepthLimit, "cannot parse past ", "", Kind::SkipDepth),
        (
            K::DepthLimit,
            "Maximum recursion depth ",
            "",
            Kind::StructDepth,
        ),
        (K::Unknown, "cannot skip field type ", "", Kind::WrongType),
        (K::Unknown, "cannot write identifier ", "", Kind::Missing),
    ]
};

fn look_up<K: PartialEq + Copy>(rows: &[Row<K>], kind: K, text: &str) -> Option<Kind> {
    rows.iter()
        .find(|(k, begin, end, _)| *k == kind && text.starts_with(begin) && text.ends_with(end))
        .map(|row| row.3)
}

/// The refusal that an error is, if the rules know it.
pub fn refusal(error: &Error) -> Option<Kind> {
    match error {
        Error::Transport(TransportError { kind, message }) => look_up(&TRANSPORT, *kind, message),
        Error::Protocol(ProtocolError { kind, message }) => look_up(&PROTOCOL, *kind, message),
        Error::Application(e)
            if e.kind == ApplicationErrorKind::Unknown
                && e.message.starts_with("Invalid configuration: ") =>
        {
            Some(Kind::FrameAboveMessage)
        }
        _ => None,
    }
}

/// Where a refused read's fault stands, as the crate's own reads tell it.
pub fn place(refusal: Kind, lent: &Lent<'_>) -> usize {
    match refusal {
        // the last byte read, alone or as the fourth of a header
        Kind::BadMessageType => lent.at - 1,
        // nothing of the value was read yet
        Kind::SkipDepth | Kind::StructDepth | Kind::WrongType => lent.at,
        _ => lent.item,
    }
}
