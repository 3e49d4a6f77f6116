//! The five limits.

/// The limits of a call. An absent one refuses nothing.
///
/// ```
/// use turmyshge::Limits;
///
/// let limits = Limits { container: Some(1_000), ..Limits::DEFAULT };
/// assert_eq!((limits.structs, limits.container), (Some(64), Some(1_000)));
/// ```
#[derive(Clone, Copy, Debug, PartialEq, Eq)]
pub struct Limits {
    /// Bytes that a container's elements must at least take.
    pub message: Option<usize>,
    /// Bytes in a frame.
    pub frame: Option<usize>,
    /// Structs open at once.
    pub structs: Option<usize>,
    /// Elements in a container.
    pub container: Option<usize>,
    /// Bytes in a text.
    pub string: Option<usize>,
}

impl Limits {
    /// The limits that every Thrift library starts with.
    pub const DEFAULT: Limits = Limits {
        message: Some(104_857_600),
        frame: Some(16_384_000),
        structs: Some(64),
        container: None,
        string: Some(104_857_600),
    };

    /// No limits at all.
    pub const NONE: Limits = Limits {
        message: None,
        frame: None,
        structs: None,
        container: None,
        string: None,
    };

    /// The limits as the archive takes them: message, frame, structs, container, string, the largest number for none.
    pub fn numbers(&self) -> [usize; 5] {
        [
            self.message,
            self.frame,
            self.structs,
            self.container,
            self.string,
        ]
        .map(|limit| limit.unwrap_or(usize::MAX))
    }
}

impl Default for Limits {
    fn default() -> Self {
        Limits::DEFAULT
    }
}
