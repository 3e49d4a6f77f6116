//! A protocol around the crate's binary one that counts the values which the crate's own skip begins.
//!
//! The skip itself is the trait's default, untouched. It begins a value with exactly one of the calls counted here, or
//! with none where it refuses the value by its depth or type.

use thrift::protocol::{
    TBinaryInputProtocol, TFieldIdentifier, TInputProtocol, TListIdentifier, TMapIdentifier,
    TMessageIdentifier, TSetIdentifier, TStructIdentifier, TType,
};
use thrift::Result;

use super::lent::Lent;

/// The crate's binary reader, the values begun, and the structs open.
pub struct Counting<'a> {
    /// The reader itself.
    pub inner: TBinaryInputProtocol<Lent<'a>>,
    /// Calls that begin a value.
    pub begun: u64,
    /// Struct begins less struct ends.
    pub open: u64,
}

impl<'a> Counting<'a> {
    /// A count of nothing yet, by a fresh reader.
    pub fn new(inner: TBinaryInputProtocol<Lent<'a>>) -> Counting<'a> {
        Counting {
            inner,
            begun: 0,
            open: 0,
        }
    }
}

/// Calls that begin a value: counted, and passed on.
macro_rules! begins {
    ($($name:ident -> $answer:ty;)*) => {
        $(fn $name(&mut self) -> Result<$answer> {
            self.begun += 1;
            self.inner.$name()
        })*
    };
}

/// Calls that begin none: passed on.
macro_rules! passes {
    ($($name:ident -> $answer:ty;)*) => {
        $(fn $name(&mut self) -> Result<$answer> {
            self.inner.$name()
        })*
    };
}

impl TInputProtocol for Counting<'_> {
    begins! {
        read_bool -> bool;
        read_bytes -> Vec<u8>;
        read_i8 -> i8;
        read_i16 -> i16;
        read_i32 -> i32;
        read_i64 -> i64;
        read_double -> f64;
        read_uuid -> uuid::Uuid;
        read_string -> String;
        read_list_begin -> TListIdentifier;
        read_set_begin -> TSetIdentifier;
        read_map_begin -> TMapIdentifier;
    }

    passes! {
        read_message_begin -> TMessageIdentifier;
        read_message_end -> ();
        read_field_begin -> TFieldIdentifier;
        read_field_end -> ();
        read_list_end -> ();
        read_set_end -> ();
        read_map_end -> ();
        read_byte -> u8;
    }

    fn read_struct_begin(&mut self) -> Result<Option<TStructIdentifier>> {
        self.begun += 1;
        let begun = self.inner.read_struct_begin()?;
        self.open += 1;
        Ok(begun)
    }

    fn read_struct_end(&mut self) -> Result<()> {
        self.inner.read_struct_end()?;
        // as the crate's own depth does where none is open
        self.open = self.open.wrapping_sub(1);
        Ok(())
    }

    fn skip_binary(&mut self) -> Result<()> {
        self.begun += 1;
        let start = self.inner.transport.at;
        let skipped = self.inner.skip_binary();
        // the crate passes a body piece by piece; it is one item all the same
        let body = start + 4;
        self.inner.transport.item = self.inner.transport.item.min(body);
        skipped
    }

    fn min_serialized_size(&self, field_type: TType) -> usize {
        self.inner.min_serialized_size(field_type)
    }
}
