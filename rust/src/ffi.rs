//! The archive's functions as they are declared in C, and one safe function over each.
//!
//! The archive reads and writes only inside the slices that it is lent and keeps neither; so the pointers and lengths
//! passed here, taken from live slices, are all that a call needs.

#[cfg(feature = "steps")]
use crate::steps::{ReadCall, StepType, WriteCall, WriteStep};
use crate::Skip;
#[cfg(feature = "steps")]
use crate::TType;

extern "C" {
    fn thrift_skip(
        bytes: *const u8,
        length: usize,
        place: usize,
        depth: usize,
        type_byte: u8,
        record: *mut u8,
        record_length: usize,
    ) -> u32;

    fn thrift_skip_within(
        bytes: *const u8,
        length: usize,
        place: usize,
        depth: usize,
        type_byte: u8,
        struct_depth: usize,
        message: usize,
        structs: usize,
        container: usize,
        string: usize,
        record: *mut u8,
        record_length: usize,
    ) -> u32;
}

#[cfg(feature = "steps")]
extern "C" {
    fn thrift_read(
        bytes: *const u8,
        length: usize,
        place: usize,
        step: u8,
        strict: u8,
        kind: u8,
        depth: usize,
        struct_depth: usize,
        message: usize,
        frame: usize,
        structs: usize,
        container: usize,
        string: usize,
        record: *mut u8,
        record_length: usize,
    ) -> u32;

    fn thrift_write(
        out: *mut u8,
        length: usize,
        place: usize,
        step: u8,
        strict: u8,
        kind: u8,
        other: u8,
        absent: u8,
        number: u64,
        text: *const u8,
        text_length: usize,
        struct_depth: usize,
        structs: usize,
        record: *mut u8,
        record_length: usize,
    ) -> u32;
}

/// A record's big-endian numbers.
fn numbers<const N: usize>(record: &[[u8; 8]; N]) -> [u64; N] {
    record.map(u64::from_be_bytes)
}

/// The numbers of a record that was set, as one of 24 bytes always is.
fn set_whole(returned: u32, record: &[[u8; 8]; 3]) -> [u64; 3] {
    // else the record is as it was made, and would read as an acceptance
    assert_eq!(returned, 0, "the record has 24 bytes");
    numbers(record)
}

/// What `thrift_skip` sets its record to: the refusal or 0, the end or the place, the count.
pub fn skip(bytes: &[u8], place: usize, depth: usize, type_byte: u8) -> [u64; 3] {
    let mut record = [[0; 8]; 3];
    // SAFETY: both pointers and lengths are those of live slices, and only the record is written.
    let returned = unsafe {
        thrift_skip(
            bytes.as_ptr(),
            bytes.len(),
            place,
            depth,
            type_byte,
            record.as_flattened_mut().as_mut_ptr(),
            record.as_flattened().len(),
        )
    };
    set_whole(returned, &record)
}

/// What `thrift_skip_within` sets its record to.
pub fn skip_within(bytes: &[u8], place: usize, type_byte: u8, how: &Skip) -> [u64; 3] {
    let [message, _, structs, container, string] = how.limits.numbers();
    let mut record = [[0; 8]; 3];
    // SAFETY: both pointers and lengths are those of live slices, and only the record is written.
    let returned = unsafe {
        thrift_skip_within(
            bytes.as_ptr(),
            bytes.len(),
            place,
            how.depth,
            type_byte,
            how.struct_depth,
            message,
            structs,
            container,
            string,
            record.as_flattened_mut().as_mut_ptr(),
            record.as_flattened().len(),
        )
    };
    set_whole(returned, &record)
}

/// A type by its index in the archive's own list, which is not its byte on the wire. No other function takes one.
#[cfg(feature = "steps")]
fn index(kind: StepType) -> u8 {
    match kind {
        StepType::Wire(TType::Stop) => 0,
        StepType::Wire(TType::Void) => 1,
        StepType::Wire(TType::Bool) => 2,
        StepType::Wire(TType::I08) => 3,
        StepType::Wire(TType::Double) => 4,
        StepType::Wire(TType::I16) => 5,
        StepType::Wire(TType::I32) => 6,
        StepType::Wire(TType::I64) => 7,
        StepType::Wire(TType::String) => 8,
        StepType::Utf7 => 9,
        StepType::Wire(TType::Struct) => 10,
        StepType::Wire(TType::Map) => 11,
        StepType::Wire(TType::Set) => 12,
        StepType::Wire(TType::List) => 13,
        StepType::Wire(TType::Uuid) => 14,
    }
}

/// The record's numbers where it was set; none where the port returned 255, for a step or an argument that there is not.
#[cfg(feature = "steps")]
fn set(returned: u32, record: &[[u8; 8]; 6]) -> Option<[u64; 6]> {
    match returned {
        0 => Some(numbers(record)),
        255 => None,
        // 15 would be for a record under 48 bytes
        other => panic!("returned {other} for a record of 48 bytes"),
    }
}

/// What `thrift_read` sets its record to, or none where it knows no such step.
#[cfg(feature = "steps")]
pub fn read(call: &ReadCall<'_>) -> Option<[u64; 6]> {
    let [message, frame, structs, container, string] = call.limits.numbers();
    let mut record = [[0; 8]; 6];
    // SAFETY: both pointers and lengths are those of live slices, and only the record is written.
    let returned = unsafe {
        thrift_read(
            call.bytes.as_ptr(),
            call.bytes.len(),
            call.place,
            call.step as u8,
            u8::from(call.strict),
            index(call.kind),
            call.depth,
            call.struct_depth,
            message,
            frame,
            structs,
            container,
            string,
            record.as_flattened_mut().as_mut_ptr(),
            record.as_flattened().len(),
        )
    };
    set(returned, &record)
}

/// What `thrift_write` sets its record to, or none where it knows no such step or the argument does not fit it.
#[cfg(feature = "steps")]
pub fn write(call: &WriteCall<'_>, out: &mut [u8]) -> Option<[u64; 6]> {
    // a message's own type goes by its byte, in the same argument
    let kind = match call.step {
        WriteStep::MessageBegin => call.message as u8,
        _ => index(call.kind),
    };
    let mut record = [[0; 8]; 6];
    // SAFETY: the pointers and lengths are those of live slices; `out` and the record are lent to be written, and
    // neither overlaps the text, which is borrowed at the same time.
    let returned = unsafe {
        thrift_write(
            out.as_mut_ptr(),
            out.len(),
            call.place,
            call.step as u8,
            u8::from(call.strict),
            kind,
            index(call.other),
            call.absent.bits(),
            call.number,
            call.text.as_ptr(),
            call.text.len(),
            call.struct_depth,
            call.structs.unwrap_or(usize::MAX),
            record.as_flattened_mut().as_mut_ptr(),
            record.as_flattened().len(),
        )
    };
    set(returned, &record)
}

#[cfg(test)]
mod tests {
    use super::{thrift_skip, thrift_skip_within};

    /// What `thrift_skip` returns for a bool that is there, and its record.
    fn skip_bool<const N: usize>(place: usize, depth: usize, type_byte: u8) -> (u32, [u8; N]) {
        let mut record = [0xee; N];
        // SAFETY: both pointers and lengths are those of live slices.
        let returned = unsafe {
            thrift_skip(
                [2].as_ptr(),
                1,
                place,
                depth,
                type_byte,
                record.as_mut_ptr(),
                N,
            )
        };
        (returned, record)
    }

    /// The same of `thrift_skip_within`, with no limits.
    fn skip_bool_within<const N: usize>(place: usize, struct_depth: usize) -> (u32, [u8; N]) {
        let none = usize::MAX;
        let mut record = [0xee; N];
        // SAFETY: both pointers and lengths are those of live slices.
        let returned = unsafe {
            thrift_skip_within(
                [2].as_ptr(),
                1,
                place,
                1,
                0x02,
                struct_depth,
                none,
                none,
                none,
                none,
                record.as_mut_ptr(),
                N,
            )
        };
        (returned, record)
    }

    /// The one refusal that is returned and not recorded. `skip` never gets it: its record has 24 bytes.
    #[test]
    fn a_short_record_is_15_before_all_else_and_untouched() {
        let full = (15, [0xee; 23]);
        assert_eq!(skip_bool(0, 1, 0x02), full);
        assert_eq!(skip_bool(2, 1, 0x02), full);
        assert_eq!(skip_bool(0, 128, 0x02), full);
        assert_eq!(skip_bool(0, 1, 0x05), full);
        assert_eq!(skip_bool(0, 1, 0x02), (15, []));
        assert_eq!(skip_bool_within(0, 0), full);
        assert_eq!(skip_bool_within(2, 0), full);
        assert_eq!(skip_bool_within(0, 65_536), full);
        assert_eq!(skip_bool_within(0, 0), (15, []));
    }

    #[test]
    fn bytes_after_the_24th_stay() {
        for (returned, record) in [skip_bool::<32>(0, 1, 0x02), skip_bool_within::<32>(0, 0)] {
            assert_eq!(returned, 0);
            assert_eq!(
                record[..24],
                [[0; 8], 1_u64.to_be_bytes(), 1_u64.to_be_bytes()].concat()
            );
            assert_eq!(record[24..], [0xee; 8]);
        }
    }
}
