//! A call through the interface, and all that comes of it.
use crate::values;
use dct::{Encoding, Field, Refusal};

/// What a call is given.
pub enum Call {
    Fetch { table: Vec<u8>, number: usize },
    Decode { field: Described, payload: Vec<u8>, byte_pos: usize, bit_pos: usize, room: usize },
    Encode { field: Described, input: Vec<u8>, payload: Vec<u8>, used: usize, byte_pos: usize, bit_pos: usize },
    Clear { field: Described, payload: Vec<u8>, used: usize, byte_pos: usize, bit_pos: usize },
    Read { field: Described, payload: Vec<u8>, byte_pos: usize, byte_count: usize },
    ValueRead { code: u32, width: usize, bytes: Vec<u8> },
    ValueWrite { code: u32, width: usize, value: i64 },
    DecodeValue { field: Described, encoding: Encoding, payload: Vec<u8>, byte_pos: usize, bit_pos: usize },
    EncodeValue { field: Described, number: Number, payload: Vec<u8>, used: usize, byte_pos: usize, bit_pos: usize },
}

/// A number to be written, and how.
pub struct Number {
    pub encoding: Encoding,
    pub width: usize,
    pub value: i64,
}

/// A record and a store.
pub struct Described {
    pub record: Vec<u8>,
    pub store: Vec<u8>,
}

impl Described {
    pub fn field(&self) -> Field<'_> {
        Field { record: &self.record, store: &self.store }
    }
}

/// What comes of a call; what it has not to do with is 0 or empty.
#[derive(Clone, Debug, Default, PartialEq, Eq)]
pub struct Answer {
    pub number: u32,
    pub expected: usize,
    pub actual: usize,
    pub bit_count: usize,
    pub byte_count: usize,
    /// The used length after an encode.
    pub used: usize,
    /// Where a part starts in the payload.
    pub place: usize,
    /// The number that was read.
    pub value: i64,
    /// All of the output, of the payload or of a value's bytes after the call; the part; the record.
    pub bytes: Vec<u8>,
    pub store: Vec<u8>,
}

/// A call and its answer, and where they are stored.
pub struct Case {
    pub place: String,
    pub call: Call,
    pub answer: Answer,
}

/// What an output holds before a decode.
pub const BLANK: u8 = 0xEE;

impl From<Refusal> for Answer {
    fn from(refusal: Refusal) -> Answer {
        let Refusal { number, expected, actual } = refusal;
        Answer { number, expected, actual, ..Answer::default() }
    }
}

impl From<Result<i64, Refusal>> for Answer {
    fn from(got: Result<i64, Refusal>) -> Answer {
        got.map_or_else(Answer::from, |value| Answer { value, ..Answer::default() })
    }
}

impl From<Result<(), Refusal>> for Answer {
    fn from(got: Result<(), Refusal>) -> Answer {
        got.map_or_else(Answer::from, |()| Answer::default())
    }
}

impl Call {
    pub fn name(&self) -> &'static str {
        match self {
            Call::Fetch { .. } => "fetch",
            Call::Decode { .. } => "decode",
            Call::Encode { .. } => "encode",
            Call::Clear { .. } => "clear",
            Call::Read { .. } => "read",
            Call::ValueRead { .. } => "value_read",
            Call::ValueWrite { .. } => "value_write",
            Call::DecodeValue { .. } => "decode_value",
            Call::EncodeValue { .. } => "encode_value",
        }
    }

    pub fn made(&self) -> Answer {
        match self {
            Call::Fetch { table, number } => fetched(table, *number),
            Call::Decode { field, payload, byte_pos, bit_pos, room } => {
                let mut output = vec![BLANK; *room];
                let answer = match dct::decode(field.field(), payload, *byte_pos, *bit_pos, &mut output) {
                    Ok(reading) => Answer { bit_count: reading.bit_count, byte_count: reading.byte_count, ..Answer::default() },
                    Err(refusal) => refusal.into(),
                };
                Answer { bytes: output, ..answer }
            }
            Call::Encode { field, input, payload, used, byte_pos, bit_pos } => {
                let (mut bytes, mut used) = (payload.clone(), *used);
                let got = dct::encode(field.field(), input, &mut bytes, &mut used, *byte_pos, *bit_pos);
                Answer { used, bytes, ..got.into() }
            }
            Call::Clear { field, payload, used, byte_pos, bit_pos } => {
                let mut bytes = payload.clone();
                let got = dct::clear(field.field(), &mut bytes, *used, *byte_pos, *bit_pos);
                Answer { bytes, ..got.into() }
            }
            Call::Read { field, payload, byte_pos, byte_count } => read(field, payload, *byte_pos, *byte_count),
            Call::ValueRead { code, width, bytes } => values::read(*code, *width, bytes),
            Call::ValueWrite { code, width, value } => values::written(*code, *width, *value),
            Call::DecodeValue { field, encoding, payload, byte_pos, bit_pos } => {
                dct::decode_value(field.field(), *encoding, payload, *byte_pos, *bit_pos).into()
            }
            Call::EncodeValue { field, number: Number { encoding, width, value }, payload, used, byte_pos, bit_pos } => {
                let (field, mut bytes, mut used) = (field.field(), payload.clone(), *used);
                let got = dct::encode_value(field, *encoding, *width, *value, &mut bytes, &mut used, *byte_pos, *bit_pos);
                Answer { used, bytes, ..got.into() }
            }
        }
    }
}

fn fetched(table: &[u8], number: usize) -> Answer {
    match dct::fetch(table, number) {
        Ok(field) => Answer { bytes: field.record.to_vec(), store: field.store.to_vec(), ..Answer::default() },
        Err(refusal) => refusal.into(),
    }
}

fn read(field: &Described, payload: &[u8], byte_pos: usize, byte_count: usize) -> Answer {
    match dct::read(field.field(), payload, byte_pos, byte_count) {
        Ok(part) => Answer {
            bit_count: part.bit_count,
            byte_count: part.bytes.len(),
            // a copy is anywhere but in the payload
            place: (part.bytes.as_ptr() as usize).wrapping_sub(payload.as_ptr() as usize),
            bytes: part.bytes.to_vec(),
            ..Answer::default()
        },
        Err(refusal) => refusal.into(),
    }
}
