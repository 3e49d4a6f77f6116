//! The types, by their bytes on the wire.

/// A type that has a byte of its own on the wire, and that byte is its number here.
///
/// These are all of Thrift's types but Utf7, which is written with `String`'s byte and read back as `String`: a byte
/// can't name it, so it is none of these ([`StepType`](crate::steps::StepType) has it, for the calls that can be told).
///
/// ```
/// use turmyshge::TType;
///
/// assert_eq!(TType::List.byte(), 0x0f);
/// assert_eq!(TType::List as u8, 0x0f);
/// assert_eq!(TType::from_byte(0x0b), Some(TType::String));
/// assert_eq!(TType::from_byte(0x05), None);
/// ```
#[derive(Clone, Copy, Debug, PartialEq, Eq, PartialOrd, Ord, Hash)]
#[repr(u8)]
pub enum TType {
    /// Ends a struct's fields. There are no values of it.
    Stop = 0x00,
    /// There are no values of it.
    Void = 0x01,
    /// One byte, 0 for false.
    Bool = 0x02,
    /// A signed byte.
    I08 = 0x03,
    /// A 64-bit float.
    Double = 0x04,
    /// A signed number of 2 bytes.
    I16 = 0x06,
    /// A signed number of 4 bytes.
    I32 = 0x08,
    /// A signed number of 8 bytes.
    I64 = 0x0a,
    /// A length and that many bytes.
    String = 0x0b,
    /// Fields until Stop.
    Struct = 0x0c,
    /// Keys and values in turn.
    Map = 0x0d,
    /// Elements of one type.
    Set = 0x0e,
    /// Elements of one type.
    List = 0x0f,
    /// 16 bytes.
    Uuid = 0x10,
}

impl TType {
    /// Every type, in the order of its byte.
    pub const ALL: [TType; 14] = [
        TType::Stop,
        TType::Void,
        TType::Bool,
        TType::I08,
        TType::Double,
        TType::I16,
        TType::I32,
        TType::I64,
        TType::String,
        TType::Struct,
        TType::Map,
        TType::Set,
        TType::List,
        TType::Uuid,
    ];

    /// Its byte on the wire.
    pub const fn byte(self) -> u8 {
        self as u8
    }

    /// The type that a byte on the wire stands for, or none where it stands for nothing.
    pub fn from_byte(byte: u8) -> Option<TType> {
        TType::ALL.into_iter().find(|kind| kind.byte() == byte)
    }
}

#[cfg(test)]
mod tests {
    use super::TType;

    /// The bytes of the rules, and that each byte comes back from the type that it stands for.
    #[test]
    fn a_type_is_its_byte_on_the_wire() {
        let bytes = [0, 1, 2, 3, 4, 6, 8, 0xa, 0xb, 0xc, 0xd, 0xe, 0xf, 0x10];
        assert_eq!(TType::ALL.map(TType::byte), bytes);
        for byte in 0..=255 {
            let back = TType::from_byte(byte).map(TType::byte);
            assert_eq!(back, bytes.contains(&byte).then_some(byte));
        }
    }
}
