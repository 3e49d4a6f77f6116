//! What the tests of the skips share: nested values, and the two kinds of answer.

use turmyshge::{Kind, Refusal, Skipped, TType};

/// An accepted skip.
pub fn passed(end: usize, count: usize) -> Result<Skipped, Refusal> {
    Ok(Skipped { end, count })
}

/// A refused skip.
pub fn refused(kind: Kind, place: usize, count: usize) -> Result<Skipped, Refusal> {
    Err(Refusal { kind, place, count })
}

/// So many structs, each the first field of the one around it.
pub fn nested_structs(structs: usize) -> Vec<u8> {
    let field = [TType::Struct.byte(), 0, 1];
    [field.repeat(structs - 1), vec![0; structs]].concat()
}

/// So many lists, each the only element of the one around it; the innermost is empty.
pub fn nested_lists(lists: usize) -> Vec<u8> {
    let header = [TType::List.byte(), 0, 0, 0, 1];
    [
        header.repeat(lists - 1),
        vec![TType::I08.byte(), 0, 0, 0, 0],
    ]
    .concat()
}
