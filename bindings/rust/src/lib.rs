//! Ducatsatchel from Rust: reading and writing the coded fields of diagnostic messages.
//!
//! Every call gets an answer or a [`Refusal`] with a number, and a refusal leaves the payload, its used length, the output and the
//! bytes of a value as they came. No byte pattern and no number makes a call panic.
//!
//! ```
//! // UInt32, low-high, 16 bits; the record speaks of no mask, so the store is empty
//! let record = [2, 0, 3, 0, 0, 0, 0, 16, 0, 0, 0, 0, 0, 0, 0, 0];
//! let field = dct::Field { record: &record, store: &[] };
//! let mut output = [0; 8];
//! let reading = dct::decode(field, &[0x12, 0x34], 0, 0, &mut output)?;
//! assert_eq!(reading.bit_count, 16);
//! assert_eq!(output[..reading.byte_count], [0x34, 0x12]);
//! # Ok::<(), dct::Refusal>(())
//! ```
#![deny(unsafe_code, missing_docs)]

#[allow(unsafe_code)]
mod ffi;
#[allow(unsafe_code)]
#[doc(hidden)]
pub mod raw;
mod refusal;
mod value;

pub use refusal::{number, Class, Refusal};
pub use value::{decode_value, encode_value, value_read, value_write, Encoding};

/// The examples of both READMEs, which are run with the other doc tests.
#[cfg(doctest)]
#[doc = include_str!("../../README.md")]
#[doc = include_str!("../../../README.md")]
struct Readme;

const RECORD_LENGTH: usize = 16;

/// What describes a field: its record, and the store with the masks and key names that records speak of.
///
/// [`fetch`] finds both in a stored table.
#[derive(Clone, Copy, Debug)]
pub struct Field<'a> {
    /// The record; a legal one has 16 bytes.
    pub record: &'a [u8],
    /// The store, of at most 32,768 bytes.
    pub store: &'a [u8],
}

/// What [`decode`] read into the front of its output.
#[derive(Clone, Copy, Debug, PartialEq, Eq)]
#[non_exhaustive]
pub struct Reading {
    /// How many bits were read. It follows from the field, and not from the byte count.
    pub bit_count: usize,
    /// How many bytes of the output they take.
    pub byte_count: usize,
}

/// The part of a payload that [`read`] found.
#[derive(Clone, Copy, Debug, PartialEq, Eq)]
#[non_exhaustive]
pub struct Part<'p> {
    /// The part itself, unordered and not a copy.
    pub bytes: &'p [u8],
    /// How many bits it has.
    pub bit_count: usize,
}

/// Finds a record of a stored table by its number, from 0, and the table's store.
///
/// The table's header and that record are checked, and no other record.
pub fn fetch(table: &[u8], number: usize) -> Result<Field<'_>, Refusal> {
    let [record, store, store_length] = ffi::fetch(table, number)?;
    Ok(Field { record: &table[record..record + RECORD_LENGTH], store: &table[store..store + store_length] })
}

/// Reads the field at a byte and a bit position of the payload into the front of the output. What is behind it stays.
///
/// The most significant byte comes first, also of a low-high field, and a number is right-aligned; an Int32 is not sign-extended, and
/// [`decode_value`] gives a signed number.
pub fn decode(
    field: Field<'_>,
    payload: &[u8],
    byte_pos: usize,
    bit_pos: usize,
    output: &mut [u8],
) -> Result<Reading, Refusal> {
    let report = ffi::decode(field, payload, byte_pos, bit_pos, output)?;
    Ok(Reading { bit_count: report.bit_count, byte_count: report.byte_count })
}

/// Writes the input as the field at a byte and a bit position of the payload, of which `used` bytes are used, and on success
/// sets `used` to the bytes then used. The slice's length is the room there is.
///
/// The input has its most significant byte first, also for a low-high field. In a field of StandardLength a number is right-aligned:
/// short input is padded with zeros in front, and surplus dropped there; for a byte type both happen at the end; under a condensed
/// mask a bit that is missing is written as 1. Terminators and length fields are not part of the input. Without a mask a write ORs,
/// and 9 or more bits that are no whole bytes lose bits. The repository's README has the way around.
pub fn encode(
    field: Field<'_>,
    input: &[u8],
    payload: &mut [u8],
    used: &mut usize,
    byte_pos: usize,
    bit_pos: usize,
) -> Result<(), Refusal> {
    ffi::encode(field, input, payload, used, byte_pos, bit_pos)
}

/// Sets the bits that a numeric field of a given length owns to zero, and no others.
pub fn clear(field: Field<'_>, payload: &mut [u8], used: usize, byte_pos: usize, bit_pos: usize) -> Result<(), Refusal> {
    ffi::clear(field, payload, used, byte_pos, bit_pos)
}

/// Finds so many bytes at a byte position of the payload, for a field whose length was read before.
pub fn read<'p>(field: Field<'_>, payload: &'p [u8], byte_pos: usize, byte_count: usize) -> Result<Part<'p>, Refusal> {
    let (place, report) = ffi::read(field, payload, byte_pos, byte_count)?;
    Ok(Part { bytes: &payload[place..place + report.byte_count], bit_count: report.bit_count })
}
