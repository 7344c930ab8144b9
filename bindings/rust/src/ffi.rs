//! The functions of include/dct.h, called with slices, and all that is unsafe in the crate but for their declarations.
//!
//! What the header asks of a caller holds by the types: a slice's pointer is never null and holds what its length says, and what
//! is lent by `&mut` overlaps nothing else.
use crate::raw::{dct_class, dct_clear, dct_decode, dct_encode, dct_fetch, dct_read, dct_value_read, dct_value_write, Report};
use crate::{number, Encoding, Field, Refusal};

/// The report of a call that gave a number.
fn answered(number: u32, report: Report) -> Result<Report, Refusal> {
    match number {
        number::OK => Ok(report),
        _ => Err(Refusal { number, expected: report.expected, actual: report.actual }),
    }
}

pub fn decode(field: Field, payload: &[u8], byte_pos: usize, bit_pos: usize, output: &mut [u8]) -> Result<Report, Refusal> {
    let Field { record, store } = field;
    let mut report = Report::default();
    // SAFETY: each pointer comes with the length of its slice, and the borrows keep apart what is written.
    let number = unsafe {
        dct_decode(
            record.as_ptr(),
            record.len(),
            store.as_ptr(),
            store.len(),
            payload.as_ptr(),
            payload.len(),
            byte_pos,
            bit_pos,
            output.as_mut_ptr(),
            output.len(),
            &mut report,
        )
    };
    answered(number, report)
}

pub fn encode(
    field: Field,
    input: &[u8],
    payload: &mut [u8],
    used: &mut usize,
    byte_pos: usize,
    bit_pos: usize,
) -> Result<(), Refusal> {
    let Field { record, store } = field;
    let mut report = Report::default();
    // SAFETY: as in `decode`; `used` is lent alone too.
    let number = unsafe {
        dct_encode(
            record.as_ptr(),
            record.len(),
            store.as_ptr(),
            store.len(),
            input.as_ptr(),
            input.len(),
            payload.as_mut_ptr(),
            payload.len(),
            used,
            byte_pos,
            bit_pos,
            &mut report,
        )
    };
    answered(number, report).map(drop)
}

pub fn clear(field: Field, payload: &mut [u8], used: usize, byte_pos: usize, bit_pos: usize) -> Result<(), Refusal> {
    let Field { record, store } = field;
    let mut report = Report::default();
    // SAFETY: as in `decode`.
    let number = unsafe {
        dct_clear(
            record.as_ptr(),
            record.len(),
            store.as_ptr(),
            store.len(),
            payload.as_mut_ptr(),
            payload.len(),
            used,
            byte_pos,
            bit_pos,
            &mut report,
        )
    };
    answered(number, report).map(drop)
}

/// Where the part starts in the payload, and the report.
pub fn read(field: Field, payload: &[u8], byte_pos: usize, byte_count: usize) -> Result<(usize, Report), Refusal> {
    let Field { record, store } = field;
    let (mut place, mut report) = (0, Report::default());
    // SAFETY: as in `decode`; nothing that is lent is written but `place` and the report.
    let number = unsafe {
        dct_read(
            record.as_ptr(),
            record.len(),
            store.as_ptr(),
            store.len(),
            payload.as_ptr(),
            payload.len(),
            byte_pos,
            byte_count,
            &mut place,
            &mut report,
        )
    };
    answered(number, report).map(|report| (place, report))
}

/// Where the record starts in the table, where the store starts, and how long the store is.
pub fn fetch(table: &[u8], number: usize) -> Result<[usize; 3], Refusal> {
    let mut places = [0; 3];
    // SAFETY: as in `decode`; nothing is written but the places.
    let number = unsafe { dct_fetch(table.as_ptr(), table.len(), number, &mut places) };
    answered(number, Report::default()).map(|_| places)
}

pub fn value_read(encoding: Encoding, width: usize, bytes: &[u8]) -> Result<i64, Refusal> {
    let mut value = 0;
    // SAFETY: as in `decode`; nothing is written but the value.
    let number = unsafe { dct_value_read(encoding as u32, width, bytes.as_ptr(), bytes.len(), &mut value) };
    answered(number, Report::default()).map(|_| value)
}

pub fn value_write(encoding: Encoding, width: usize, value: i64, bytes: &mut [u8]) -> Result<(), Refusal> {
    // SAFETY: as in `decode`.
    let number = unsafe { dct_value_write(encoding as u32, width, value, bytes.as_mut_ptr(), bytes.len()) };
    answered(number, Report::default()).map(drop)
}

/// The letter of the class of a number.
pub fn class(number: u32) -> u32 {
    // SAFETY: it takes no pointer.
    unsafe { dct_class(number) }
}
