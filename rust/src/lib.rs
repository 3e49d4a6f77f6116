//! Thrift's binary protocol, read by code that is proved right.
//!
//! The codec itself is written in Rattle, where every function is proved to meet its contract before it is compiled.
//! This crate is its safe face for Rust: it lends slices to the compiled archive and hands back values. What a caller
//! must still believe is listed in the repository's README; this crate adds the declarations in its one private
//! module of foreign functions to that list.
//!
//! [`skip`] passes one value of a type that the caller does not know:
//!
//! ```
//! use turmyshge::{skip, TType, DEFAULT_SKIP_DEPTH};
//!
//! // a struct: field 1 is the i32 9, then Stop
//! let bytes = [0x08, 0, 1, 0, 0, 0, 9, 0];
//! let passed = skip(&bytes, 0, DEFAULT_SKIP_DEPTH, TType::Struct).unwrap();
//! assert_eq!((passed.end, passed.count), (8, 2));
//!
//! // a text of four bytes with one missing
//! let text = [0, 0, 0, 4, b'a', b'b', b'c'];
//! let refused = skip(&text, 0, DEFAULT_SKIP_DEPTH, TType::String).unwrap_err();
//! assert_eq!((refused.kind.number(), refused.place), (1, 4));
//! println!("{refused}");
//! ```
//!
//! [`Skip`] does it under limits of the caller's own and inside structs that are open already.
//!
//! [`steps`] has the words in which single reads and writes are asked for. With the feature `steps` it also has the
//! calls themselves, over a second archive (`tools/staticlib probe`).
#![deny(unsafe_code)]
#![deny(missing_docs)]

#[allow(unsafe_code)]
mod ffi;
mod limits;
mod refusal;
mod skip;
pub mod steps;
mod ttype;

pub use limits::Limits;
pub use refusal::Kind;
pub use skip::{skip, skip_by_byte, Refusal, Skip, Skipped, DEFAULT_SKIP_DEPTH};
pub use ttype::TType;
