//! The original's side of a call: a coded type built through its constructors, and its messages turned into our numbers.
use crate::case::class;
use crate::field::{self, Field, Variant};
use original::DiagServiceError;
use original::diag_coded_type::{
    DataType, DiagCodedType, DiagCodedTypeVariant, MinMaxLengthType, StandardLengthType, Termination,
};

/// A refusal of the original: our number, the class that it has there, and for 30 what it expected and found.
#[derive(Debug, PartialEq, Eq)]
pub struct Refusal {
    pub number: u32,
    pub class: u32,
    pub expected: usize,
    pub actual: usize,
}

/// The words by which each message is known. No message has the words of an earlier line.
const WORDS: [(&str, u32); 22] = [
    ("are only allowed for ByteField, AsciiString", 10),
    ("needs an even amount of min/max bytes", 11),
    ("max_length cannot be 0", 12),
    ("cannot be less than min_length", 13),
    ("Bit position must be 0 for", 20),
    ("Cannot extract data with length 0", 21),
    ("Length must be at most 64 bit", 22),
    ("Length must be exactly 32 bit", 23),
    ("Length must be exactly 64 bit", 24),
    ("Length must be a multiple of 16 bit", 25),
    ("BitPosition range is 0..=7", 26),
    ("exceeds data length", 27),
    ("Payload slice for leading length out of bounds", 31),
    ("unsupported leading length size", 32),
    ("Length byte count out of bounds", 32),
    ("exceeds the maximum value of the", 33),
    ("Not enough data in payload, needed", 34),
    ("Cannot insert 0 bits", 35),
    ("StandardLengthType input data length", 36),
    ("requires a runtime-resolved byte length", 37),
    ("Failed to create length info", 38),
    ("", 99),
];

impl From<DiagServiceError> for Refusal {
    /// The class is the error's case, and the number is known by the text; a text that is not listed has the number 99, which
    /// the library never gives.
    fn from(error: DiagServiceError) -> Refusal {
        let (text, class) = match error {
            DiagServiceError::NotEnoughData { expected, actual } => {
                return Refusal { number: 30, class: class::NOT_ENOUGH_DATA, expected, actual };
            }
            DiagServiceError::InvalidDatabase(text) => (text, class::INVALID_DATABASE),
            DiagServiceError::BadPayload(text) => (text, class::BAD_PAYLOAD),
        };
        let number = WORDS.iter().find(|(words, _)| text.contains(words)).map_or(99, |(_, number)| *number);
        Refusal { number, class, expected: 0, actual: 0 }
    }
}

pub fn data_type(code: u8) -> DataType {
    match code {
        field::INT32 => DataType::Int32,
        field::UINT32 => DataType::UInt32,
        field::FLOAT32 => DataType::Float32,
        field::ASCII => DataType::AsciiString,
        field::UTF8 => DataType::Utf8String,
        field::UNICODE2 => DataType::Unicode2String,
        field::BYTE_FIELD => DataType::ByteField,
        field::FLOAT64 => DataType::Float64,
        other => panic!("no type has the code {other}"),
    }
}

pub fn termination(code: u8) -> Termination {
    match code {
        field::END_OF_PDU => Termination::EndOfPdu,
        field::ZERO => Termination::Zero,
        _ => Termination::HexFF,
    }
}

/// The variant of a field, with limits that are made by `MinMaxLengthType::new`.
pub fn variant(field: &Field) -> Result<DiagCodedTypeVariant, Refusal> {
    Ok(match &field.variant {
        Variant::Leading(bits) => DiagCodedTypeVariant::LeadingLengthInfo(*bits),
        Variant::MinMax { min, max, termination: code } => {
            DiagCodedTypeVariant::MinMaxLength(MinMaxLengthType::new(*min, *max, termination(*code))?)
        }
        Variant::Standard { bits, mask, condensed } => DiagCodedTypeVariant::StandardLength(StandardLengthType {
            bit_length: *bits,
            bit_mask: mask.clone(),
            condensed: *condensed,
        }),
        // its names are UTF-8, and no answer depends on them
        Variant::Param(name) => DiagCodedTypeVariant::ParamLengthInfo(String::from_utf8_lossy(name).into_owned()),
    })
}

/// The coded type of a field, through `MinMaxLengthType::new` and then `new`.
pub fn coded_type(field: &Field) -> Result<DiagCodedType, Refusal> {
    Ok(DiagCodedType::new(data_type(field.data_type), variant(field)?, field.high_low)?)
}
