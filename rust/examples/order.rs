//! Reads an order that a newer sender has added fields to.
//!
//! An order is a message called "order" whose field 1 is the account (a text) and field 2 the quantity (an i64). Every
//! other field is stepped over, and never past: where a field can't be passed the reading ends with a refusal, and no
//! later byte is taken for a quantity.

use std::error::Error;

use turmyshge::steps::{read_field_begin, read_i64, read_message_begin, read_string};
use turmyshge::{Limits, Skip, TType};

/// One set of limits for all that is read, the fields that are stepped over too.
const LIMITS: Limits = Limits::DEFAULT;

/// How an unknown field is stepped over: its value lies inside the order's own struct.
const UNKNOWN: Skip = Skip {
    struct_depth: 1,
    limits: LIMITS,
    ..Skip::DEFAULT
};

#[derive(Debug, PartialEq)]
struct Order<'a> {
    account: &'a str,
    quantity: i64,
}

/// The order that `bytes` are, whole and with nothing after it.
fn read_order(bytes: &[u8]) -> Result<Order<'_>, Box<dyn Error>> {
    let (message, mut at) = read_message_begin(bytes, 0, true, LIMITS)?;
    if message.name != "order" {
        return Err("not an order".into());
    }
    // No default: an order that doesn't say how much is not one for 0.
    let (mut account, mut quantity) = (None, None);
    let end = loop {
        let ((kind, id), value) = read_field_begin(bytes, at)?;
        at = match (id, kind) {
            (_, TType::Stop) => break value,
            (1, TType::String) => {
                let (text, end) = read_string(bytes, value, LIMITS)?;
                account = Some(text);
                end
            }
            (2, TType::I64) => {
                let (lots, end) = read_i64(bytes, value)?;
                quantity = Some(lots);
                end
            }
            // Unknown, or known and of another type: the skip says where the next field begins, or that none does.
            _ => UNKNOWN.value(bytes, value, kind)?.end,
        };
    };
    if end < bytes.len() {
        return Err("bytes after the order".into());
    }
    Ok(Order {
        account: account.ok_or("no account")?,
        quantity: quantity.ok_or("no quantity")?,
    })
}

/// A message header, account "A7", unknown field 9, quantity 25, Stop.
#[rustfmt::skip]
const ORDER: [u8; 59] = [
    0x80, 1, 0, 4, 0, 0, 0, 5, b'o', b'r', b'd', b'e', b'r', 0, 0, 0, 7, // one-way "order", number 7
    0x0b, 0, 1, 0, 0, 0, 2, b'A', b'7',
    // a map of one text to a list of two bytes
    0x0d, 0, 9, 0x0b, 0x0f, 0, 0, 0, 1, 0, 0, 0, 1, b'k', 0x03, 0, 0, 0, 2, 1, 2,
    0x0a, 0, 2, 0, 0, 0, 0, 0, 0, 0, 25,
    0x00,
];

fn main() -> Result<(), Box<dyn Error>> {
    println!("{:?}", read_order(&ORDER)?);

    // Cut off inside the unknown field.
    println!("cut off: {}", read_order(&ORDER[..46]).unwrap_err());

    // The unknown field's list says 15 elements for 2. Fourteen bytes are left for them, the quantity's own among them.
    let mut damaged = ORDER;
    damaged[44] = 15;
    println!("damaged: {}", read_order(&damaged).unwrap_err());
    Ok(())
}

#[cfg(test)]
mod tests {
    use super::{read_order, Order, ORDER};

    /// The order with field 9 being so many structs, each the first field of the one around it.
    fn with_structs(structs: usize) -> Vec<u8> {
        let nested = [[0x0c, 0, 1].repeat(structs - 1), vec![0; structs]].concat();
        [&ORDER[..26], &[0x0c, 0, 9], &nested, &ORDER[47..]].concat()
    }

    fn said(bytes: &[u8]) -> String {
        read_order(bytes).unwrap_err().to_string()
    }

    #[test]
    fn the_whole_order_is_read() {
        let order = Order {
            account: "A7",
            quantity: 25,
        };
        assert_eq!(read_order(&ORDER).unwrap(), order);
    }

    #[test]
    fn an_order_cut_off_anywhere_is_refused() {
        for length in 0..ORDER.len() {
            assert!(said(&ORDER[..length]).starts_with("refusal 1: short input, at byte "));
        }
        assert_eq!(
            said(&ORDER[..46]),
            "refusal 1: short input, at byte 46 (the first byte of the item that is not wholly there), \
             5 values begun"
        );
    }

    /// Some of these skips end where the sizes say, elsewhere in the order: then it lacks a quantity or ends early.
    #[test]
    fn an_order_with_a_wrong_size_in_it_is_not_read() {
        for size in (0..=255).filter(|size| *size != ORDER[44]) {
            let mut damaged = ORDER;
            damaged[44] = size;
            assert!(read_order(&damaged).is_err(), "size {size}");
        }
    }

    /// The order's own struct is open around them, so the 64th would be the 65th. A generated reader of the published
    /// crate stands there too, and refuses it as its struct depth.
    #[test]
    fn the_64th_struct_in_an_unknown_field_is_refused() {
        assert_eq!(read_order(&with_structs(63)).unwrap().quantity, 25);
        assert_eq!(
            said(&with_structs(64)),
            "refusal 11: struct depth at its limit, at byte 218 (where the struct would begin), 64 values begun"
        );
    }
}
