//! What a step is told of types, and the codes of messages.

use crate::TType;

/// A type that a single step is asked for: one that has a byte of its own, or Utf7.
///
/// Utf7 is written with `String`'s byte, so it never comes out of a read; no scalar and no skipped value is of it.
///
/// ```
/// use turmyshge::steps::StepType;
/// use turmyshge::TType;
///
/// let kind = StepType::from(TType::I32);
/// assert!(kind == TType::I32);
/// assert_eq!((kind.byte(), StepType::Utf7.byte()), (0x08, 0x0b));
/// ```
#[derive(Clone, Copy, Debug, PartialEq, Eq)]
pub enum StepType {
    /// A type that has a byte of its own.
    Wire(TType),
    /// Written as `String` is, and read back as one.
    Utf7,
}

impl StepType {
    /// Every type, Utf7 behind String.
    pub const ALL: [StepType; 15] = [
        StepType::Wire(TType::Stop),
        StepType::Wire(TType::Void),
        StepType::Wire(TType::Bool),
        StepType::Wire(TType::I08),
        StepType::Wire(TType::Double),
        StepType::Wire(TType::I16),
        StepType::Wire(TType::I32),
        StepType::Wire(TType::I64),
        StepType::Wire(TType::String),
        StepType::Utf7,
        StepType::Wire(TType::Struct),
        StepType::Wire(TType::Map),
        StepType::Wire(TType::Set),
        StepType::Wire(TType::List),
        StepType::Wire(TType::Uuid),
    ];

    /// The byte that it is written with.
    pub const fn byte(self) -> u8 {
        match self {
            StepType::Wire(kind) => kind.byte(),
            StepType::Utf7 => TType::String.byte(),
        }
    }

    /// The type, unless it is Utf7.
    pub const fn wire(self) -> Option<TType> {
        match self {
            StepType::Wire(kind) => Some(kind),
            StepType::Utf7 => None,
        }
    }
}

impl From<TType> for StepType {
    fn from(kind: TType) -> Self {
        StepType::Wire(kind)
    }
}

impl PartialEq<TType> for StepType {
    fn eq(&self, other: &TType) -> bool {
        self.wire() == Some(*other)
    }
}

/// What a message is. Its number here is its byte on the wire.
///
/// ```
/// use turmyshge::steps::MessageType;
///
/// assert_eq!(MessageType::OneWay as u8, 4);
/// assert_eq!(MessageType::from_byte(5), None);
/// ```
#[derive(Clone, Copy, Debug, PartialEq, Eq)]
#[repr(u8)]
pub enum MessageType {
    /// A request.
    Call = 1,
    /// An answer.
    Reply = 2,
    /// An error in place of an answer.
    Exception = 3,
    /// A request that wants no answer.
    OneWay = 4,
}

impl MessageType {
    /// Every message type, in order.
    pub const ALL: [MessageType; 4] = [
        MessageType::Call,
        MessageType::Reply,
        MessageType::Exception,
        MessageType::OneWay,
    ];

    /// The message type that a byte stands for.
    pub fn from_byte(byte: u8) -> Option<MessageType> {
        MessageType::ALL
            .into_iter()
            .find(|kind| *kind as u8 == byte)
    }
}
