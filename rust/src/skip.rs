//! The skip of one value, under the default limits or under any.

use std::error::Error;
use std::fmt;

use crate::{ffi, Kind, Limits, TType};

/// The depth that a skip usually starts with. The greatest is 127.
pub const DEFAULT_SKIP_DEPTH: usize = 64;

/// A value was passed.
#[derive(Clone, Copy, Debug, PartialEq, Eq)]
pub struct Skipped {
    /// The place just after the value.
    pub end: usize,
    /// The number of values passed: the value itself and each one inside it.
    pub count: usize,
}

/// No value of the type stands there within depth and limits.
///
/// ```
/// use turmyshge::{skip, Kind, Refusal, TType, DEFAULT_SKIP_DEPTH};
///
/// // a list that says it holds three i16, and holds two
/// let list = [0x06, 0, 0, 0, 3, 0, 1, 0, 2];
/// let refused = skip(&list, 0, DEFAULT_SKIP_DEPTH, TType::List).unwrap_err();
/// assert_eq!(refused, Refusal { kind: Kind::ShortInput, place: 9, count: 4 });
/// assert_eq!(
///     refused.to_string(),
///     "refusal 1: short input, at byte 9 (the first byte of the item that is not wholly there), 4 values begun"
/// );
/// ```
#[derive(Clone, Copy, Debug, PartialEq, Eq)]
pub struct Refusal {
    /// Why.
    pub kind: Kind,
    /// Where the fault stands; [`Kind::points_at`] says what is there.
    pub place: usize,
    /// The number of values begun before it.
    pub count: usize,
}

impl fmt::Display for Refusal {
    fn fmt(&self, f: &mut fmt::Formatter<'_>) -> fmt::Result {
        let values = if self.count == 1 { "value" } else { "values" };
        write!(
            f,
            "{}, at byte {} ({}), {} {values} begun",
            self.kind,
            self.place,
            self.kind.points_at(),
            self.count
        )
    }
}

impl Error for Refusal {}

/// A place or count in the archive's record.
pub(crate) fn in_memory(number: u64) -> usize {
    usize::try_from(number).expect("places and counts are usize in the archive")
}

/// What an archive's record of a skip tells.
fn told([number, end, count]: [u64; 3]) -> Result<Skipped, Refusal> {
    let (end, count) = (in_memory(end), in_memory(count));
    match Kind::in_record(number) {
        None => Ok(Skipped { end, count }),
        Some(kind) => Err(Refusal {
            kind,
            place: end,
            count,
        }),
    }
}

/// Passes the value of type `kind` that starts at `place`, down to `depth` levels (0 to 127; [`DEFAULT_SKIP_DEPTH`] is
/// usual).
///
/// The limits are the defaults: texts to 104,857,600 bytes, structs nested to 64, containers whose least size is at
/// most 104,857,600 bytes. The bytes are only looked at; a refused skip leaves the caller's place as it was.
///
/// Every call answers. It refuses 2, 20, then what the value's own bytes call for: 1, 5, 6, 7, 9, 10, 11, 12.
///
/// It calls itself for each level, so a thread must have the stack for it: some 35,000 bytes for 127 levels,
/// 272 a level. That is measured, not proved.
///
/// ```
/// use turmyshge::{skip, Kind, Skipped, TType};
///
/// // the list of two bytes 5 and 6
/// let list = [0x03, 0, 0, 0, 2, 5, 6];
/// assert_eq!(skip(&list, 0, 2, TType::List), Ok(Skipped { end: 7, count: 3 }));
/// assert_eq!(skip(&list, 0, 1, TType::List).unwrap_err().kind, Kind::SkipDepth);
/// ```
pub fn skip(bytes: &[u8], place: usize, depth: usize, kind: TType) -> Result<Skipped, Refusal> {
    skip_by_byte(bytes, place, depth, kind.byte())
}

/// The same by a type's byte as it stood on the wire, which may be one that stands for nothing.
///
/// It refuses 2, 20, then 5 at the start, with count 0, for such a byte; then as [`skip`] does.
///
/// ```
/// use turmyshge::{skip_by_byte, Kind, Refusal, Skipped};
///
/// assert_eq!(skip_by_byte(&[0, 9], 0, 1, 0x06), Ok(Skipped { end: 2, count: 1 }));
/// let unknown = Refusal { kind: Kind::UnknownType, place: 0, count: 0 };
/// assert_eq!(skip_by_byte(&[0, 9], 0, 1, 0x05), Err(unknown));
/// ```
pub fn skip_by_byte(
    bytes: &[u8],
    place: usize,
    depth: usize,
    type_byte: u8,
) -> Result<Skipped, Refusal> {
    told(ffi::skip(bytes, place, depth, type_byte))
}

/// How a value is skipped where the defaults won't do: how deep, inside how many open structs, under which limits.
///
/// A reader that meets a field it doesn't know stands inside the struct that the field belongs to, and its own limits
/// may be tighter than the defaults. A skip that is told both refuses what the reader would refuse.
///
/// ```
/// use turmyshge::{Kind, Limits, Skip, TType};
///
/// // fields of the outermost struct, at most two structs inside each other, texts to 8 bytes
/// let unknown = Skip {
///     struct_depth: 1,
///     limits: Limits { structs: Some(2), string: Some(8), ..Limits::DEFAULT },
///     ..Skip::DEFAULT
/// };
/// assert_eq!(unknown.value(&[0x00], 0, TType::Struct).unwrap().end, 1);
/// let nested = [0x0c, 0, 1, 0x00, 0x00];
/// assert_eq!(unknown.value(&nested, 0, TType::Struct).unwrap_err().kind, Kind::StructDepth);
/// let long = [0, 0, 0, 9];
/// assert_eq!(unknown.value(&long, 0, TType::String).unwrap_err().kind, Kind::StringLimit);
/// ```
#[derive(Clone, Copy, Debug, PartialEq, Eq)]
pub struct Skip {
    /// How many levels may be gone down: 0 to 127.
    pub depth: usize,
    /// How many structs are open where the value starts, at most 65,535: 1 for a field of the outermost struct.
    pub struct_depth: usize,
    /// The limits. That on frames is not looked at, as a skip reads none.
    pub limits: Limits,
}

impl Skip {
    /// What [`skip`] does: 64 levels, no struct open, the default limits.
    pub const DEFAULT: Skip = Skip {
        depth: DEFAULT_SKIP_DEPTH,
        struct_depth: 0,
        limits: Limits::DEFAULT,
    };

    /// Passes the value of type `kind` that starts at `place`.
    ///
    /// Every call answers. It refuses 2, 20 (for either depth), then what the value's own bytes call for: 1, 5, 6, 7,
    /// 8, 9, 10, 11, 12. Its stack is that of [`skip`].
    ///
    /// ```
    /// use turmyshge::{Kind, Limits, Skip, Skipped, TType};
    ///
    /// // the list of two bytes 5 and 6, with at most so many elements
    /// let list = [0x03, 0, 0, 0, 2, 5, 6];
    /// let at_most = |most| Skip {
    ///     limits: Limits { container: Some(most), ..Limits::DEFAULT },
    ///     ..Skip::DEFAULT
    /// };
    /// assert_eq!(at_most(2).value(&list, 0, TType::List), Ok(Skipped { end: 7, count: 3 }));
    /// let refused = at_most(1).value(&list, 0, TType::List).unwrap_err();
    /// assert_eq!((refused.kind, refused.place), (Kind::ContainerLimit, 1));
    /// ```
    pub fn value(&self, bytes: &[u8], place: usize, kind: TType) -> Result<Skipped, Refusal> {
        self.value_by_byte(bytes, place, kind.byte())
    }

    /// The same by a type's byte as it stood on the wire, which may be one that stands for nothing.
    ///
    /// It refuses 2, 20, then 5 at the start, with count 0, for such a byte; then as [`value`](Skip::value) does.
    ///
    /// ```
    /// use turmyshge::{Kind, Skip};
    ///
    /// assert_eq!(Skip::DEFAULT.value_by_byte(&[0, 9], 0, 0x06).unwrap().end, 2);
    /// let refused = Skip::DEFAULT.value_by_byte(&[0, 9], 0, 0x05).unwrap_err();
    /// assert_eq!((refused.kind, refused.count), (Kind::UnknownType, 0));
    /// ```
    pub fn value_by_byte(
        &self,
        bytes: &[u8],
        place: usize,
        type_byte: u8,
    ) -> Result<Skipped, Refusal> {
        told(ffi::skip_within(bytes, place, type_byte, self))
    }
}

impl Default for Skip {
    fn default() -> Self {
        Skip::DEFAULT
    }
}
