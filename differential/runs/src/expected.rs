//! What a call should answer: the rules of docs/RULES.md on slices, records and room, for values their model, and for all else the
//! original.
use crate::case::{Answer, Call, Case};
use crate::field::{Field, Variant, is_numeric};
use crate::original_side::{Refusal, coded_type};
use crate::values;
use original::diag_coded_type::DiagCodedType;

/// What a run has met of the differences that docs/DIFFERENCES.md lists.
#[derive(Clone, Copy, Default)]
pub struct Met {
    /// The original would have grown the payload past `NEAR` and was called on a near position instead.
    pub far: u64,
    /// The original refused a write and had grown the payload.
    pub grown: u64,
    /// The original wrote past the room, or gave more than the output holds: 40 and 41.
    pub room: u64,
}

pub const SLICE: usize = 65_535;
const STORE: usize = 32_768;
/// How long a payload may become under the original, in bytes.
const NEAR: usize = 1 << 17;

/// The answer, and what was met on the way.
pub fn expected(case: &Case, met: &mut Met) -> Answer {
    let Case { record, store, call } = case;
    let [a, b] = match call {
        Call::Decode { payload, output, .. } => [payload.len(), output.len()],
        Call::Encode { input, payload, .. } => [input.len(), payload.len()],
        Call::Clear { payload, .. } | Call::Read { payload, .. } => [payload.len(), 0],
        Call::Fetch { table, number } => return fetched(table, *number, call),
        Call::ReadValue { .. } | Call::WriteValue { .. } => return values::expected(call),
    };
    if record.len() > SLICE || store.len() > STORE || a > SLICE || b > SLICE {
        return Answer::refused(43, call);
    }
    if let Call::Encode { payload, used, .. } | Call::Clear { payload, used, .. } = call
        && *used > payload.len()
    {
        return Answer::refused(44, call);
    }
    let field = match Field::parse(record, store) {
        Ok(field) => field,
        Err(number) => return Answer::refused(number, call),
    };
    match coded_type(&field).and_then(|coded| answered(&field, &coded, call, met)) {
        Ok(answer) => answer,
        Err(refusal) => refused(&refusal, call),
    }
}

/// The answer of a call that the original refuses, of the class that it has there.
fn refused(refusal: &Refusal, call: &Call) -> Answer {
    let Refusal { number, class, expected, actual } = *refusal;
    Answer { class, report: [0, 0, expected, actual], ..Answer::refused(number, call) }
}

/// What a call on a legal coded type answers.
fn answered(field: &Field, coded: &DiagCodedType, call: &Call, met: &mut Met) -> Result<Answer, Refusal> {
    Ok(match call {
        Call::Decode { payload, byte_pos, bit_pos, output } => {
            let (mut bytes, bit_count) = coded.decode(payload, *byte_pos, *bit_pos)?;
            if bytes.len() > output.len() {
                met.room += 1;
                return Ok(Answer::refused(41, call));
            }
            let report = [bit_count, bytes.len(), 0, 0];
            bytes.extend(&output[bytes.len()..]);
            Answer { report, bytes, ..Answer::default() }
        }
        Call::Encode { input, payload, used, byte_pos, bit_pos } => {
            match written(field, coded, input, &payload[..*used], *byte_pos, *bit_pos, met)? {
                Written::Bytes(mut bytes) if bytes.len() <= payload.len() => {
                    let used = bytes.len();
                    bytes.extend(&payload[used..]);
                    Answer { bytes, used, ..Answer::default() }
                }
                _ => {
                    met.room += 1;
                    Answer::refused(40, call)
                }
            }
        }
        Call::Clear { payload, used, byte_pos, bit_pos } => {
            let Some((field, zeros)) = clearing(field) else { return Ok(Answer::refused(39, call)) };
            match written(&field, &coded_type(&field)?, &zeros, &payload[..*used], *byte_pos, *bit_pos, met)? {
                Written::Bytes(mut bytes) if bytes.len() <= *used => {
                    bytes.extend(&payload[*used..]);
                    Answer { bytes, ..Answer::default() }
                }
                Written::Bytes(bytes) => Answer::short(bytes.len(), *used, call),
                Written::Past(end) => Answer::short(end, *used, call),
            }
        }
        Call::Read { payload, byte_pos, byte_count } => {
            let (bytes, bit_count) = coded.decode_with_runtime_byte_length(payload, *byte_pos, *byte_count)?;
            let place = if bytes.is_empty() { 0 } else { *byte_pos };
            Answer { report: [bit_count, bytes.len(), 0, 0], bytes, places: [place, 0, 0], ..Answer::default() }
        }
        Call::Fetch { .. } | Call::ReadValue { .. } | Call::WriteValue { .. } => unreachable!("it has no coded type"),
    })
}

/// What the original wrote: the payload, or just where it would end, too far to be made.
enum Written {
    Bytes(Vec<u8>),
    Past(usize),
}

/// The original's encode, where the payload does not become too long.
fn written(
    field: &Field,
    coded: &DiagCodedType,
    input: &[u8],
    before: &[u8],
    byte_pos: usize,
    bit_pos: usize,
    met: &mut Met,
) -> Result<Written, Refusal> {
    let source = match &field.variant {
        Variant::Standard { mask: Some(mask), condensed: true, .. } if !mask.is_empty() => 8 * mask.len(),
        Variant::Standard { bits, .. } => *bits as usize,
        _ => 8 * (input.len() + 8),
    };
    let end = byte_pos.saturating_add(bit_pos.saturating_add(source).div_ceil(8));
    let nothing_to_write = matches!(field.variant, Variant::Param(_)) && input.is_empty();
    if end > NEAR && !nothing_to_write {
        met.far += 1;
        return refused_nearer(field, input, bit_pos).map(|()| Written::Past(end));
    }
    let mut payload = before.to_vec();
    let Err(error) = coded.encode(input.to_vec(), &mut payload, byte_pos, bit_pos) else { return Ok(Written::Bytes(payload)) };
    let refusal = Refusal::from(error);
    let grown = payload.len() > before.len();
    met.grown += u64::from(grown);
    // no refusal but 26 may have grown it, and none may have changed what was there
    let only_grown = payload.starts_with(before) && payload[before.len()..].iter().all(|byte| *byte == 0);
    let as_known = only_grown && (!grown || refusal.number == 26);
    Err(if as_known { refusal } else { Refusal { number: 98, ..refusal } })
}

/// What the original refuses of an encode on a position, and a length, that are nearer: no refusal of encode looks at the byte
/// position, 26 is given from bit 8 on, and a length that takes more than `NEAR` is above 64 and above that of any mask, so
/// that of its refusals only 25 looks closer.
fn refused_nearer(field: &Field, input: &[u8], bit_pos: usize) -> Result<(), Refusal> {
    let mut field = field.clone();
    if let Variant::Standard { bits, mask, .. } = &mut field.variant
        && *bits as usize > 8 * NEAR
    {
        (*bits, *mask) = (128 + *bits % 16, None);
    }
    Ok(coded_type(&field)?.encode(input.to_vec(), &mut Vec::new(), 0, bit_pos.min(8))?)
}

/// The field and the input by which the original's encode clears: zeros under the field's mask, all ones if it has none.
/// A field that cannot be cleared has none.
fn clearing(field: &Field) -> Option<(Field, Vec<u8>)> {
    let Variant::Standard { bits, mask, condensed } = &field.variant else { return None };
    if !is_numeric(field.data_type) {
        return None;
    }
    let mask = mask.clone().unwrap_or_default();
    let (mask, condensed) =
        if mask.is_empty() { (vec![0xFF; bits.div_ceil(8).clamp(1, 8) as usize], false) } else { (mask, *condensed) };
    let zeros = vec![0; mask.len()];
    Some((Field { variant: Variant::Standard { bits: *bits, mask: Some(mask), condensed }, ..field.clone() }, zeros))
}

/// The stored table (RULES 9), and of the record that is fetched what the original's constructors say.
fn fetched(table: &[u8], number: usize, call: &Call) -> Answer {
    let ours = |number| Answer::refused(number, call);
    if table.len() > SLICE {
        return ours(43);
    }
    if table.len() < 9 || table[..3] != *b"DCT" {
        return ours(45);
    }
    let [version, count, store] = [3, 5, 7].map(|i| usize::from(u16::from_be_bytes([table[i], table[i + 1]])));
    let store_at = 9 + 16 * count;
    if version != 1 || count > 1024 || store > STORE || table.len() != store_at + store {
        return ours(45);
    }
    if number >= count {
        return ours(42);
    }
    let place = 9 + 16 * number;
    match Field::parse(&table[place..place + 16], &table[store_at..]).map(|field| coded_type(&field)) {
        Ok(Ok(_)) => Answer { places: [place, store_at, store], ..Answer::default() },
        Ok(Err(refusal)) => refused(&refusal, call),
        Err(number) => ours(number),
    }
}
