//! What the original's getters say, in the lines that our program `getters` prints of the same records.
use crate::field::{self, Field, Variant};
use crate::original_side::{Refusal, data_type, termination, variant};
use crate::random::{self, Random};
use original::DiagServiceError;
use original::diag_coded_type::{DataType, DiagCodedType, DiagCodedTypeVariant, MinMaxLengthType, Termination};
use std::collections::BTreeMap;
use std::io::{self, Write};

const RECORDS: u64 = 1_000;
/// How long the store of each record is.
const STORE: usize = 32;

/// A field, its record and its store. The original's names are UTF-8, so the field's is too.
fn entry(number: u64) -> (Field, Vec<u8>, Vec<u8>) {
    let mut random = Random::new(1, number);
    let mut field = random::field(&mut random);
    match &mut field.variant {
        Variant::Param(name) => *name = String::from_utf8_lossy(name).into_owned().into_bytes(),
        // of Unicode2String, which wants one, no maximum is missing there
        Variant::MinMax { max, .. } if random.percent(20) => *max = None,
        _ => {}
    }
    let (place, mut store) = (random.below(3), random.bytes(STORE));
    store[place..place + field.part().len()].copy_from_slice(field.part());
    let record = field.record(place as u16);
    (field, record, store)
}

fn bytes(bytes: &[u8]) -> String {
    let digits: String = bytes.iter().map(|byte| format!("{byte:02x}")).collect();
    format!("[{digits}]")
}

fn or_absent(said: Option<String>) -> String {
    said.unwrap_or_else(|| "-".to_owned())
}

fn type_code(data_type: DataType) -> u8 {
    match data_type {
        DataType::Int32 => field::INT32,
        DataType::UInt32 => field::UINT32,
        DataType::Float32 => field::FLOAT32,
        DataType::AsciiString => field::ASCII,
        DataType::Utf8String => field::UTF8,
        DataType::Unicode2String => field::UNICODE2,
        DataType::ByteField => field::BYTE_FIELD,
        DataType::Float64 => field::FLOAT64,
    }
}

fn termination_code(termination: &Termination) -> u8 {
    match termination {
        Termination::EndOfPdu => field::END_OF_PDU,
        Termination::Zero => field::ZERO,
        Termination::HexFF => field::HEX_FF,
    }
}

/// What `new` says of the limits, and where it makes them their getters.
fn limits_said(given: &MinMaxLengthType) -> String {
    let code = termination_code(given.termination());
    match MinMaxLengthType::new(given.min_length(), given.max_length(), termination(code)) {
        Err(error) => Refusal::from(error).number.to_string(),
        Ok(limits) => {
            let most = or_absent(limits.max_length().map(|most| most.to_string()));
            format!("0 {} {most} {}", limits.min_length(), termination_code(limits.termination()))
        }
    }
}

/// The variant's code, and what it holds.
fn type_said(type_: &DiagCodedTypeVariant) -> String {
    match type_ {
        DiagCodedTypeVariant::LeadingLengthInfo(bits) => format!("1 {bits}"),
        DiagCodedTypeVariant::MinMaxLength(limits) => format!("2 {}", limits_said(limits)),
        DiagCodedTypeVariant::StandardLength(standard) => {
            let mask = or_absent(standard.bit_mask.as_deref().map(bytes));
            format!("3 {} {} {mask}", standard.bit_length, u8::from(standard.condensed))
        }
        DiagCodedTypeVariant::ParamLengthInfo(name) => format!("4 {}", bytes(name.as_bytes())),
    }
}

/// The number beside a name, which the original has not: that of its constructors.
fn number_beside(type_: &DiagCodedTypeVariant) -> String {
    match type_ {
        DiagCodedTypeVariant::MinMaxLength(limits) => limits_said(limits).split(' ').next().unwrap_or_default().to_owned(),
        _ => "0".to_owned(),
    }
}

/// What the getters say. The original has none for the order of bytes, which only its text for debugging shows.
fn said(built: Result<DiagCodedType, DiagServiceError>) -> String {
    let coded = match built {
        Ok(coded) => coded,
        Err(error) => return format!(" {}\n", Refusal::from(error).number),
    };
    let code = type_code(coded.base_datatype());
    let high_low = u8::from(format!("{coded:?}").ends_with("is_high_low_byte_order: true }"));
    let bit_len = or_absent(coded.bit_len().map(|bits| bits.to_string()));
    let name = or_absent(coded.length_key_name().map(|name| bytes(name.as_bytes())));
    let type_ = coded.type_();
    format!(" 0 {code} {high_low} {bit_len} {} {name} {}\n", number_beside(type_), type_said(type_))
}

/// The variant of a field. Limits are not made by their `new` but put there by hand, as the original lets a caller do.
fn by_hand(field: &Field) -> DiagCodedTypeVariant {
    match field.variant {
        Variant::MinMax { min, max, termination: code } => DiagCodedTypeVariant::MinMaxLength(MinMaxLengthType {
            min_length: min,
            max_length: max,
            termination: termination(code),
        }),
        _ => variant(field).unwrap_or_else(|refusal| panic!("a variant without limits is refused: {refusal:?}")),
    }
}

/// A line for each of its two `new`.
fn lines_of(field: &Field) -> String {
    let code = data_type(field.data_type);
    said(DiagCodedType::new(code, by_hand(field), field.high_low))
        + &said(DiagCodedType::new_high_low_byte_order(code, by_hand(field)))
}

/// Writes the records with their stores to the standard output.
pub fn records() -> bool {
    (0..RECORDS).all(|number| {
        let (_, record, store) = entry(number);
        io::stdout().write_all(&[record, store].concat()).is_ok()
    })
}

/// Writes their lines to the standard output, and to the standard error how many have which number, by the two `new` and by that
/// of limits. Each type has to be made, and each refusal given.
pub fn lines() -> bool {
    let mut counts: BTreeMap<String, u64> = BTreeMap::new();
    let written = (0..RECORDS).all(|number| {
        let lines = lines_of(&entry(number).0);
        let words: Vec<&str> = lines.split_whitespace().take(5).collect();
        let kind = match words[..] {
            ["0", code, _, _, "0"] => format!("type {code}"),
            ["0", _, _, _, limits] => limits.to_owned(),
            _ => words[0].to_owned(),
        };
        *counts.entry(kind).or_default() += 1;
        io::stdout().write_all(lines.as_bytes()).is_ok()
    });
    let shown: Vec<String> = counts.iter().map(|(kind, count)| format!("{kind}: {count}")).collect();
    eprintln!("{RECORDS} records; {}", shown.join(", "));
    let types = (1..=8).map(|code| format!("type {code}"));
    written && types.chain((10..=13).map(|number: u32| number.to_string())).all(|kind| counts.contains_key(&kind))
}
