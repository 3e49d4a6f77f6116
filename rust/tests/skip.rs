//! The skip under the default limits, called for an accepted value of each kind and for every refusal that it can give.

mod bodies;

use std::collections::BTreeSet;
use std::error::Error;

use bodies::{nested_lists, nested_structs, passed, refused};
use turmyshge::{skip, skip_by_byte, Kind, Refusal, Skipped, TType, DEFAULT_SKIP_DEPTH};

const STOP: u8 = 0x00;
const VOID: u8 = 0x01;
const BOOL: u8 = 0x02;
const BYTE: u8 = 0x03;
const I16: u8 = 0x06;
const I32: u8 = 0x08;
const I64: u8 = 0x0a;
const STRUCT: u8 = 0x0c;
const LIST: u8 = 0x0f;
const UUID: u8 = 0x10;
/// Bytes that stand for no type.
const UNKNOWN: [u8; 4] = [0x05, 0x07, 0x09, 0x11];

/// Every refusal that `skip` can give. Why not the others:
///
/// - 3, 4: it reads no message header;
/// - 8: the container limit is absent by default (`tests/within.rs` sets one);
/// - 13: a skipped text's bytes are not looked at;
/// - 14: it ends only structs that it began;
/// - 15: returned for a record under 24 bytes, and `skip` lends one of 24 (`src/ffi.rs` tests a shorter one);
/// - 16, 17: it writes nothing;
/// - 18, 19: it reads no frame and builds no limits.
const GIVEN: [Kind; 10] = [
    Kind::ShortInput,
    Kind::StartBeyond,
    Kind::UnknownType,
    Kind::NegativeSize,
    Kind::StringLimit,
    Kind::MessageLimit,
    Kind::SkipDepth,
    Kind::StructDepth,
    Kind::WrongType,
    Kind::DepthBeyond,
];

/// A skip from the start at the usual depth.
fn whole(bytes: &[u8], kind: TType) -> Result<Skipped, Refusal> {
    skip(bytes, 0, DEFAULT_SKIP_DEPTH, kind)
}

/// The rules' own cases that are skips, W4 to W10.
#[test]
fn the_rules_cases() {
    assert_eq!(skip(&[2], 0, 1, TType::Bool), passed(1, 1));
    assert_eq!(
        skip(&[2], 0, 0, TType::Bool),
        refused(Kind::SkipDepth, 0, 1)
    );
    let bytes = [BYTE, 0, 0, 0, 2, 5, 6];
    assert_eq!(skip(&bytes, 0, 2, TType::List), passed(7, 3));
    assert_eq!(
        skip(&bytes, 0, 1, TType::List),
        refused(Kind::SkipDepth, 5, 2)
    );
    assert_eq!(skip(&[VOID, 0, 0, 0, 0], 0, 1, TType::List), passed(5, 1));
    let void = [VOID, 0, 0, 0, 1];
    assert_eq!(
        skip(&void, 0, 2, TType::List),
        refused(Kind::WrongType, 5, 2)
    );
    let fields = [I32, 0, 1, 0, 0, 0, 9, STOP];
    assert_eq!(skip(&fields, 0, 2, TType::Struct), passed(8, 2));
    let negative = refused(Kind::NegativeSize, 0, 1);
    assert_eq!(whole(&[0xff; 4], TType::String), negative);
}

#[test]
fn passes_a_value_of_each_type() {
    for (kind, width) in [
        (TType::Bool, 1),
        (TType::I08, 1),
        (TType::I16, 2),
        (TType::I32, 4),
        (TType::I64, 8),
        (TType::Double, 8),
        (TType::Uuid, 16),
    ] {
        assert_eq!(skip(&[0xff; 20], 3, 1, kind), passed(3 + width, 1));
    }
    assert_eq!(
        skip(&[9, 0, 0, 0, 1, 0xff], 1, 1, TType::String),
        passed(6, 1)
    );
    assert_eq!(skip(&[STOP], 0, 1, TType::Struct), passed(1, 1));
    assert_eq!(
        skip(&[BOOL, 0, 0, 0, 2, 1, 0], 0, 2, TType::Set),
        passed(7, 3)
    );
    assert_eq!(
        skip(&[BYTE, BYTE, 0, 0, 0, 1, 5, 6], 0, 2, TType::Map),
        passed(8, 3)
    );
}

#[test]
fn passes_what_is_as_deep_as_allowed() {
    assert_eq!(
        skip(&nested_structs(64), 0, 64, TType::Struct),
        passed(253, 64)
    );
    assert_eq!(
        skip(&nested_lists(127), 0, 127, TType::List),
        passed(635, 127)
    );
}

#[test]
fn short_input_is_1_at_what_is_not_whole() {
    let short = |place, count| refused(Kind::ShortInput, place, count);
    assert_eq!(whole(&[], TType::Bool), short(0, 1));
    assert_eq!(whole(&[0; 15], TType::Uuid), short(0, 1));
    assert_eq!(whole(&[0, 0, 0], TType::String), short(0, 1));
    assert_eq!(whole(&[0, 0, 0, 1], TType::String), short(4, 1));
    assert_eq!(whole(&[BYTE, 0], TType::Struct), short(1, 1));
    assert_eq!(whole(&[BYTE, 0, 1, 7], TType::Struct), short(4, 2));
    assert_eq!(whole(&[I16, 0, 0, 0, 2, 0, 1, 0], TType::List), short(7, 3));
    assert_eq!(whole(&[BYTE, BYTE, 0, 0, 0, 1, 5], TType::Map), short(7, 3));
}

#[test]
fn start_beyond_is_2_before_20() {
    assert_eq!(
        skip_by_byte(&[], 1, 128, UNKNOWN[0]),
        refused(Kind::StartBeyond, 1, 0)
    );
    assert_eq!(
        skip(&[0], usize::MAX, 64, TType::Bool),
        refused(Kind::StartBeyond, usize::MAX, 0)
    );
}

#[test]
fn unknown_type_is_5_where_it_is_named() {
    for byte in UNKNOWN {
        let unknown = |place, count| refused(Kind::UnknownType, place, count);
        assert_eq!(skip_by_byte(&[0, 0], 1, 0, byte), unknown(1, 0));
        assert_eq!(whole(&[byte], TType::Struct), unknown(0, 1));
        assert_eq!(whole(&[byte, 0, 0, 0, 0], TType::List), unknown(0, 1));
        assert_eq!(whole(&[byte, 0, 0, 0, 0], TType::Set), unknown(0, 1));
        assert_eq!(whole(&[byte, BOOL, 0, 0, 0, 0], TType::Map), unknown(0, 1));
        assert_eq!(whole(&[BOOL, byte, 0, 0, 0, 0], TType::Map), unknown(1, 1));
    }
}

#[test]
fn negative_size_is_6() {
    let negative = |place| refused(Kind::NegativeSize, place, 1);
    assert_eq!(whole(&[0x80, 0, 0, 0], TType::String), negative(0));
    assert_eq!(
        whole(&[BOOL, 0xff, 0xff, 0xff, 0xff], TType::List),
        negative(1)
    );
    assert_eq!(
        whole(&[BOOL, BOOL, 0xff, 0xff, 0xff, 0xff], TType::Map),
        negative(2)
    );
}

/// A type's number is its byte on the wire, so a skip by either is one skip.
#[test]
fn a_type_is_skipped_as_its_byte_is() {
    let bytes = [BYTE, 0, 0, 0, 1, 7, STOP, 0, 0, 0, 0, 0, 0, 0, 0, 0];
    for kind in TType::ALL {
        let by_type = skip(&bytes, 0, 2, kind);
        assert_eq!(by_type, skip_by_byte(&bytes, 0, 2, kind as u8));
        assert_eq!(by_type, skip_by_byte(&bytes, 0, 2, kind.byte()));
    }
    assert_eq!(skip_by_byte(&bytes, 0, 2, TType::I32 as u8), passed(4, 1));
}

/// The limit is on what is declared, so a short input reaches it: at the limit the missing bytes are the fault.
#[test]
fn string_limit_is_7() {
    let declared = |length: u32| whole(&length.to_be_bytes(), TType::String);
    assert_eq!(declared(104_857_600), refused(Kind::ShortInput, 4, 1));
    assert_eq!(declared(104_857_601), refused(Kind::StringLimit, 0, 1));
}

#[test]
fn message_limit_is_9() {
    let list = |element: u8, size: u32| {
        whole(&[&[element][..], &size.to_be_bytes()].concat(), TType::List)
    };
    for (element, most) in [(BOOL, 104_857_600), (I64, 13_107_200), (UUID, 6_553_600)] {
        assert_eq!(list(element, most), refused(Kind::ShortInput, 5, 2));
        let above = list(element, most + 1);
        assert_eq!(above, refused(Kind::MessageLimit, 1, 1));
    }
    let map = |size: u32| whole(&[&[I64, I64][..], &size.to_be_bytes()].concat(), TType::Map);
    assert_eq!(map(6_553_600), refused(Kind::ShortInput, 6, 2));
    assert_eq!(map(6_553_601), refused(Kind::MessageLimit, 2, 1));
}

#[test]
fn skip_depth_is_10_at_the_value() {
    let deep = |place, count| refused(Kind::SkipDepth, place, count);
    // before the type is asked about, but for an unknown one
    assert_eq!(skip(&[], 0, 0, TType::Void), deep(0, 1));
    assert_eq!(
        skip(&[BYTE, 0, 1, 7, STOP], 0, 1, TType::Struct),
        deep(3, 2)
    );
    assert_eq!(
        skip(&nested_lists(127), 0, 126, TType::List),
        deep(630, 127)
    );
}

#[test]
fn struct_depth_is_11_at_the_65th_struct() {
    let nested = nested_structs(65);
    assert_eq!(
        skip(&nested, 0, 127, TType::Struct),
        refused(Kind::StructDepth, 192, 65)
    );
    // the skip depth comes first where both are used up
    assert_eq!(
        skip(&nested, 0, 64, TType::Struct),
        refused(Kind::SkipDepth, 192, 65)
    );
}

#[test]
fn unskippable_type_is_12() {
    let unskippable = |place, count| refused(Kind::WrongType, place, count);
    assert_eq!(whole(&[], TType::Stop), unskippable(0, 1));
    assert_eq!(whole(&[], TType::Void), unskippable(0, 1));
    assert_eq!(whole(&[VOID, 0, 1, 0], TType::Struct), unskippable(3, 2));
    assert_eq!(whole(&[STOP, 0, 0, 0, 1], TType::List), unskippable(5, 2));
    assert_eq!(
        whole(&[BOOL, VOID, 0, 0, 0, 1, 1], TType::Map),
        unskippable(7, 3)
    );
}

#[test]
fn depth_beyond_is_20_before_5() {
    let beyond = |place| refused(Kind::DepthBeyond, place, 0);
    assert_eq!(skip_by_byte(&[0], 1, 128, UNKNOWN[0]), beyond(1));
    assert_eq!(skip(&[0], 0, usize::MAX, TType::Bool), beyond(0));
}

/// Every string to 5 of the bytes on which a skip's way divides, and the three refusals that those can't call for:
/// the refusals given are those of `GIVEN`, and no count is above its bound.
#[test]
fn these_refusals_and_no_others_are_given() {
    const BYTES: [u8; 8] = [STOP, VOID, BYTE, 0x05, I64, STRUCT, LIST, 0xff];
    let mut given = BTreeSet::new();
    let mut see = |bytes: &[u8], place: usize, depth: usize, type_byte: u8| match skip_by_byte(
        bytes, place, depth, type_byte,
    ) {
        Ok(skipped) => assert!(skipped.count <= skipped.end - place),
        Err(refused) => {
            assert!(refused.count <= refused.place - place + 1);
            given.insert(refused.kind);
        }
    };
    for length in 0..=5 {
        for number in 0..BYTES.len().pow(length) {
            let bytes: Vec<u8> = (0..length)
                .map(|i| BYTES[number / BYTES.len().pow(i) % BYTES.len()])
                .collect();
            for type_byte in STOP..=UNKNOWN[3] {
                see(&bytes, 0, 0, type_byte);
                see(&bytes, 0, 3, type_byte);
            }
        }
    }
    see(&[], 1, 64, BOOL);
    see(&[], 0, 128, BOOL);
    see(&nested_structs(65), 0, 127, STRUCT);
    assert_eq!(Vec::from_iter(given), GIVEN);
}

#[test]
fn a_refusal_says_number_meaning_and_place() {
    let refused: Box<dyn Error> = whole(&[0xff; 4], TType::String).unwrap_err().into();
    assert_eq!(
        refused.to_string(),
        "refusal 6: negative size, at byte 0 (the size's first byte), 1 value begun"
    );
    let refused = skip(&[], 7, 64, TType::Bool).unwrap_err();
    assert_eq!(
        refused.to_string(),
        "refusal 2: the start lies beyond the buffer, at byte 7 (the start), 0 values begun"
    );
}
