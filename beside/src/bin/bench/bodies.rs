//! The four bodies that are skipped.

use turmyshge::TType;

/// A body: what it is, its type, its bytes.
pub struct Body {
    /// What it is.
    pub name: &'static str,
    /// Its type.
    pub kind: TType,
    /// Its bytes.
    pub bytes: Vec<u8>,
}

/// All four.
pub fn all() -> [Body; 4] {
    [
        Body {
            name: "skip a struct of 10,000 mixed fields",
            kind: TType::Struct,
            bytes: mixed_struct(10_000),
        },
        Body {
            name: "skip a list of 1,000,000 I64",
            kind: TType::List,
            bytes: list_of_i64(1_000_000),
        },
        Body {
            name: "skip a list of 200,000 short strings",
            kind: TType::List,
            bytes: list_of_strings(200_000),
        },
        Body {
            name: "skip a map of 20,000 strings to small structs",
            kind: TType::Map,
            bytes: map_to_structs(20_000),
        },
    ]
}

fn put_size(out: &mut Vec<u8>, size: usize) {
    out.extend((size as u32).to_be_bytes());
}

fn put_string(out: &mut Vec<u8>, length: usize) {
    put_size(out, length);
    out.extend((0..length).map(|i| b'a' + (i % 26) as u8));
}

/// Fields of ten kinds in turn, about 100 bytes each.
fn mixed_struct(fields: usize) -> Vec<u8> {
    let mut out = Vec::new();
    for number in 0..fields {
        let kind = [0x02, 0x03, 0x04, 0x06, 0x08, 0x0a, 0x0b, 0x0c, 0x0f, 0x10][number % 10];
        out.push(kind);
        out.extend((number as u16).to_be_bytes());
        match kind {
            0x02 | 0x03 => out.push(1),
            0x06 => out.extend([0; 2]),
            0x08 => out.extend([0; 4]),
            0x04 | 0x0a => out.extend([0; 8]),
            0x10 => out.extend([0; 16]),
            0x0b => put_string(&mut out, 560),
            0x0c => small_struct(&mut out, number),
            _ => out.extend(list_of_i64(40)),
        }
    }
    out.push(0);
    out
}

/// An i32 and a short text.
fn small_struct(out: &mut Vec<u8>, number: usize) {
    out.extend([0x08, 0, 1]);
    put_size(out, number);
    out.extend([0x0b, 0, 2]);
    put_string(out, number % 16);
    out.push(0);
}

fn list_of_i64(size: usize) -> Vec<u8> {
    let mut out = vec![0x0a];
    put_size(&mut out, size);
    out.extend((0..size as u64).flat_map(u64::to_be_bytes));
    out
}

fn list_of_strings(size: usize) -> Vec<u8> {
    let mut out = vec![0x0b];
    put_size(&mut out, size);
    for number in 0..size {
        put_string(&mut out, number % 24);
    }
    out
}

fn map_to_structs(size: usize) -> Vec<u8> {
    let mut out = vec![0x0b, 0x0c];
    put_size(&mut out, size);
    for number in 0..size {
        put_string(&mut out, 4 + number % 12);
        small_struct(&mut out, number);
    }
    out
}
