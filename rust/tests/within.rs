//! The skip under any limits and inside open structs, called for every refusal that it can give.

mod bodies;

use std::collections::BTreeSet;

use bodies::{nested_lists, nested_structs, passed, refused};
use turmyshge::{skip_by_byte, Kind, Limits, Refusal, Skip, Skipped, TType};

/// No limits, and as deep as can be.
const FREE: Skip = Skip {
    depth: 127,
    struct_depth: 0,
    limits: Limits::NONE,
};

/// Every refusal that it can give: those of `skip`, and 8, as a container limit can be set here.
const GIVEN: [Kind; 11] = [
    Kind::ShortInput,
    Kind::StartBeyond,
    Kind::UnknownType,
    Kind::NegativeSize,
    Kind::StringLimit,
    Kind::ContainerLimit,
    Kind::MessageLimit,
    Kind::SkipDepth,
    Kind::StructDepth,
    Kind::WrongType,
    Kind::DepthBeyond,
];

/// A skip from the start.
fn whole(how: Skip, bytes: &[u8], kind: TType) -> Result<Skipped, Refusal> {
    how.value(bytes, 0, kind)
}

fn inside(struct_depth: usize) -> Skip {
    Skip {
        struct_depth,
        ..FREE
    }
}

fn under(limits: Limits) -> Skip {
    Skip { limits, ..FREE }
}

#[test]
fn a_default_skip_is_the_plain_one() {
    let nested = nested_structs(65);
    for kind in 0..=0x11 {
        for place in [0, 1, nested.len(), nested.len() + 1] {
            for depth in [0, 1, 64, 127, 128] {
                let how = Skip {
                    depth,
                    ..Skip::DEFAULT
                };
                assert_eq!(
                    how.value_by_byte(&nested, place, kind),
                    skip_by_byte(&nested, place, depth, kind)
                );
            }
        }
    }
}

#[test]
fn start_beyond_is_2_before_20() {
    let how = Skip {
        depth: 128,
        ..inside(65_536)
    };
    assert_eq!(
        how.value_by_byte(&[0], 2, 0x05),
        refused(Kind::StartBeyond, 2, 0)
    );
}

#[test]
fn either_depth_beyond_is_20_before_5() {
    let beyond = refused(Kind::DepthBeyond, 1, 0);
    let deep = Skip { depth: 128, ..FREE };
    assert_eq!(deep.value_by_byte(&[0], 1, 0x05), beyond);
    assert_eq!(inside(65_536).value_by_byte(&[0], 1, 0x05), beyond);
    assert_eq!(inside(65_536).value(&[0, 0], 1, TType::Bool), beyond);
    assert_eq!(inside(usize::MAX).value(&[0, 0], 1, TType::Bool), beyond);
    assert_eq!(inside(65_535).value(&[0, 0], 1, TType::Bool), passed(2, 1));
}

#[test]
fn unknown_type_is_5_before_all_of_the_values_own() {
    let how = Skip { depth: 0, ..FREE };
    assert_eq!(
        how.value_by_byte(&[], 0, 0x11),
        refused(Kind::UnknownType, 0, 0)
    );
    assert_eq!(
        whole(FREE, &[0x05], TType::Struct),
        refused(Kind::UnknownType, 0, 1)
    );
}

#[test]
fn short_input_is_1_and_a_negative_size_6_under_any_limits() {
    assert_eq!(
        whole(FREE, &[0x7f, 0xff, 0xff, 0xff], TType::String),
        refused(Kind::ShortInput, 4, 1)
    );
    let tight = under(Limits {
        string: Some(0),
        ..Limits::NONE
    });
    assert_eq!(
        whole(tight, &[0xff; 4], TType::String),
        refused(Kind::NegativeSize, 0, 1)
    );
}

#[test]
fn string_limit_is_7_inside_containers_too() {
    let to_two = under(Limits {
        string: Some(2),
        ..Limits::NONE
    });
    let text = |length: u8| [vec![0, 0, 0, length], vec![b'a'; length.into()]].concat();
    assert_eq!(whole(to_two, &text(2), TType::String), passed(6, 1));
    assert_eq!(
        whole(to_two, &text(3), TType::String),
        refused(Kind::StringLimit, 0, 1)
    );
    let in_list = [vec![0x0b, 0, 0, 0, 2], text(2), text(3)].concat();
    assert_eq!(
        whole(to_two, &in_list, TType::List),
        refused(Kind::StringLimit, 11, 3)
    );
}

#[test]
fn container_limit_is_8_at_the_size() {
    let to_one = under(Limits {
        container: Some(1),
        ..Limits::NONE
    });
    let list = |size: u8| [0x03, 0, 0, 0, size, 5, 6];
    assert_eq!(whole(to_one, &list(1), TType::List), passed(6, 2));
    let above = refused(Kind::ContainerLimit, 1, 1);
    assert_eq!(whole(to_one, &list(2), TType::List), above);
    assert_eq!(whole(to_one, &list(2), TType::Set), above);
    assert_eq!(
        whole(to_one, &[0x03, 0x03, 0, 0, 0, 2], TType::Map),
        refused(Kind::ContainerLimit, 2, 1)
    );
}

#[test]
fn message_limit_is_9_by_least_bytes() {
    let to_eight = under(Limits {
        message: Some(8),
        ..Limits::NONE
    });
    let list = |size: u8| [&[0x0a, 0, 0, 0, size][..], &[0; 16]].concat();
    assert_eq!(whole(to_eight, &list(1), TType::List), passed(13, 2));
    assert_eq!(
        whole(to_eight, &list(2), TType::List),
        refused(Kind::MessageLimit, 1, 1)
    );
    // the container limit is judged first
    let both = under(Limits {
        container: Some(1),
        ..to_eight.limits
    });
    assert_eq!(
        whole(both, &list(2), TType::List),
        refused(Kind::ContainerLimit, 1, 1)
    );
}

#[test]
fn skip_depth_is_10() {
    let one = Skip { depth: 1, ..FREE };
    assert_eq!(
        whole(one, &nested_lists(2), TType::List),
        refused(Kind::SkipDepth, 5, 2)
    );
}

/// The struct depth that is given counts: a limit of 64 leaves 63 structs inside an open one.
#[test]
fn struct_depth_is_11_counted_from_the_depth_given() {
    let within = |struct_depth| Skip {
        depth: 127,
        struct_depth,
        limits: Limits::DEFAULT,
    };
    let nested = nested_structs(64);
    assert_eq!(whole(within(0), &nested, TType::Struct), passed(253, 64));
    let at = |begun: usize| refused(Kind::StructDepth, 3 * (begun - 1), begun);
    assert_eq!(whole(within(1), &nested, TType::Struct), at(64));
    assert_eq!(whole(within(60), &nested, TType::Struct), at(5));
    assert_eq!(whole(within(64), &nested, TType::Struct), at(1));
    assert_eq!(whole(within(1_000), &nested, TType::Struct), at(1));
    // no struct, no struct depth
    assert_eq!(whole(within(64), &[0; 5], TType::List), passed(5, 1));
}

/// At 65,535 no struct begins, whatever the limit.
#[test]
fn struct_depth_is_11_at_65_535_without_a_limit() {
    assert_eq!(whole(inside(65_534), &[0], TType::Struct), passed(1, 1));
    assert_eq!(
        whole(inside(65_535), &[0], TType::Struct),
        refused(Kind::StructDepth, 0, 1)
    );
    assert_eq!(
        whole(FREE, &nested_structs(127), TType::Struct),
        passed(505, 127)
    );
}

#[test]
fn unskippable_type_is_12() {
    assert_eq!(
        whole(FREE, &[], TType::Void),
        refused(Kind::WrongType, 0, 1)
    );
}

/// Every string to 5 of the bytes on which a skip's way divides, under tight limits: the refusals are those of `GIVEN`.
#[test]
fn these_refusals_and_no_others_are_given() {
    const BYTES: [u8; 8] = [0, 1, 3, 5, 0x0a, 0x0c, 0x0f, 0xff];
    let tight = Skip {
        depth: 3,
        struct_depth: 1,
        limits: Limits {
            message: Some(16),
            structs: Some(2),
            container: Some(3),
            string: Some(1),
            ..Limits::NONE
        },
    };
    let none = Skip { depth: 0, ..tight };
    let mut given = BTreeSet::new();
    let mut see = |how: Skip, bytes: &[u8], place: usize, type_byte: u8| {
        if let Err(refused) = how.value_by_byte(bytes, place, type_byte) {
            given.insert(refused.kind);
        }
    };
    for length in 0..=5 {
        for number in 0..BYTES.len().pow(length) {
            let bytes: Vec<u8> = (0..length)
                .map(|i| BYTES[number / BYTES.len().pow(i) % BYTES.len()])
                .collect();
            for type_byte in 0..=0x11 {
                see(tight, &bytes, 0, type_byte);
                see(none, &bytes, 0, type_byte);
            }
        }
    }
    see(tight, &[], 1, 0x02);
    see(inside(65_536), &[], 0, 0x02);
    assert_eq!(Vec::from_iter(given), GIVEN);
}
