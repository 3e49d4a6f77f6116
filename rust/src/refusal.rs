//! The refusals, by name and number.

use std::fmt;

macro_rules! refusals {
    ($($name:ident = $number:literal, $words:literal, $place:literal;)*) => {
        /// Why a call was refused. The numbers are the same in every language that the codec is called from.
        ///
        /// ```
        /// use turmyshge::Kind;
        ///
        /// assert_eq!(Kind::from_number(7), Some(Kind::StringLimit));
        /// assert_eq!(Kind::StringLimit.to_string(), "refusal 7: text above the string limit");
        /// assert_eq!(Kind::StringLimit.points_at(), "the length's first byte");
        /// ```
        #[derive(Clone, Copy, Debug, PartialEq, Eq, PartialOrd, Ord, Hash)]
        #[repr(u8)]
        pub enum Kind {
            $(#[doc = concat!($number, ", ", $words, ". Its place: ", $place, ".")] $name = $number,)*
        }

        impl Kind {
            /// Every refusal, from 1 to 20.
            pub const ALL: [Kind; 20] = [$(Kind::$name,)*];

            /// What it means, in words.
            pub fn meaning(self) -> &'static str {
                match self {
                    $(Kind::$name => $words,)*
                }
            }

            /// What stands at the place that comes with it, in words.
            pub fn points_at(self) -> &'static str {
                match self {
                    $(Kind::$name => $place,)*
                }
            }
        }
    };
}

refusals! {
    ShortInput = 1, "short input", "the first byte of the item that is not wholly there";
    StartBeyond = 2, "the start lies beyond the buffer", "the start";
    BadVersion = 3, "bad version", "the header's first byte";
    BadMessageType = 4, "message type not 1 to 4", "that byte";
    UnknownType = 5, "unknown type byte", "that byte, or the start where the caller named the type";
    NegativeSize = 6, "negative size", "the size's first byte";
    StringLimit = 7, "text above the string limit", "the length's first byte";
    ContainerLimit = 8, "size above the container limit", "the size's first byte";
    MessageLimit = 9, "container's least bytes above the message limit", "the size's first byte";
    SkipDepth = 10, "skip depth used up", "where the value would begin";
    StructDepth = 11, "struct depth at its limit", "where the struct would begin";
    WrongType = 12, "type that can't be skipped, or is no scalar", "where the value would begin";
    NotUtf8 = 13, "not UTF-8", "the text's first byte; in a write 0, counted in the text";
    NoStructOpen = 14, "struct end with none open", "the start";
    OutputFull = 15, "output full", "the write place";
    TooLong = 16, "longer than 2,147,483,647 bytes", "the write place";
    Missing = 17, "field id or map type missing", "the write place";
    FrameLimit = 18, "frame above the frame limit", "the frame header's first byte";
    FrameAboveMessage = 19, "frame limit above message limit", "always 0";
    DepthBeyond = 20, "depth above 127, or struct depth above 65,535", "the start";
}

impl Kind {
    /// Its number, 1 to 20.
    pub fn number(self) -> u8 {
        self as u8
    }

    /// The refusal with this number, if there is one.
    pub fn from_number(number: u64) -> Option<Kind> {
        let before = usize::try_from(number.checked_sub(1)?).ok()?;
        Kind::ALL.get(before).copied()
    }

    /// The refusal that an archive's record tells, or none for 0. A number that is neither is no acceptance.
    pub(crate) fn in_record(number: u64) -> Option<Kind> {
        let refusal = Kind::from_number(number);
        assert!(
            refusal.is_some() || number == 0,
            "the archive is another one: it tells refusal {number}"
        );
        refusal
    }
}

impl fmt::Display for Kind {
    fn fmt(&self, f: &mut fmt::Formatter<'_>) -> fmt::Result {
        write!(f, "refusal {}: {}", self.number(), self.meaning())
    }
}

#[cfg(test)]
mod tests {
    use super::Kind;

    #[test]
    fn numbers_go_from_1_to_20_and_back() {
        for (before, refusal) in Kind::ALL.into_iter().enumerate() {
            assert_eq!(usize::from(refusal.number()), before + 1);
            assert_eq!(
                Kind::from_number(u64::from(refusal.number())),
                Some(refusal)
            );
        }
        assert_eq!(Kind::from_number(0), None);
        assert_eq!(Kind::from_number(21), None);
    }

    #[test]
    #[should_panic(expected = "it tells refusal 21")]
    fn an_unknown_number_is_no_acceptance() {
        Kind::in_record(21);
    }
}
