//! The crate's types for the port's.

use thrift::protocol::TType as Published;
use turmyshge::steps::StepType;
use turmyshge::TType;

/// The crate's type of the same name.
pub fn ttype(kind: impl Into<StepType>) -> Published {
    match kind.into() {
        StepType::Wire(TType::Stop) => Published::Stop,
        StepType::Wire(TType::Void) => Published::Void,
        StepType::Wire(TType::Bool) => Published::Bool,
        StepType::Wire(TType::I08) => Published::I08,
        StepType::Wire(TType::Double) => Published::Double,
        StepType::Wire(TType::I16) => Published::I16,
        StepType::Wire(TType::I32) => Published::I32,
        StepType::Wire(TType::I64) => Published::I64,
        StepType::Wire(TType::String) => Published::String,
        StepType::Utf7 => Published::Utf7,
        StepType::Wire(TType::Struct) => Published::Struct,
        StepType::Wire(TType::Map) => Published::Map,
        StepType::Wire(TType::Set) => Published::Set,
        StepType::Wire(TType::List) => Published::List,
        StepType::Wire(TType::Uuid) => Published::Uuid,
    }
}

/// The byte on the wire of one of the crate's types, as the port's list of types has it.
pub fn byte(kind: Published) -> u64 {
    let known = StepType::ALL
        .into_iter()
        .find(|known| ttype(*known) == kind);
    u64::from(known.expect("every type is listed").byte())
}
