//! The list of stored answers that the program `replay` makes again: answers of the original, spread over calls, numbers, variants
//! and types, in the form that docs/DIFFERENTIAL.md describes.
use crate::case::{Answer, Call, Case};
use crate::damaged;
use crate::expected::{Met, expected};
use crate::random;
use crate::tally::Tally;
use std::collections::HashMap;
use std::io::{self, Write};

const ANSWERS: u64 = 20_000;
/// How many of a kind are taken, a kind being the call, its number, and the record's type, flags and variant.
fn wanted(call: &Call, number: u32) -> usize {
    match (call, number) {
        (Call::Read { .. }, _) | (_, 1..) => 8,
        (_, 0) => 40,
    }
}

/// A number in so many bytes, of which the upper half stands for the last numbers below 2^64.
fn far(number: usize, bytes: usize) -> Option<Vec<u8>> {
    let half = 1usize << (8 * bytes - 1);
    let near = number < half || number.wrapping_neg() <= half;
    near.then(|| number.to_be_bytes()[8 - bytes..].to_vec())
}

fn byte(number: usize) -> Option<u8> {
    u8::try_from(number).ok()
}

/// How many bytes from the front are not as they were.
fn changed(before: &[u8], after: &[u8]) -> usize {
    before.iter().zip(after).rposition(|(old, new)| old != new).map_or(0, |last| last + 1)
}

/// The answer's form, if it has one: slices of at most 255 bytes, positions that are near or near 2^64.
fn stored(case: &Case, answer: &Answer) -> Option<Vec<u8>> {
    let none = Vec::new();
    let [bit_count, byte_count, expected, actual] = answer.report;
    let (code, input, payload, byte_pos, bit_pos, lent, left, after) = match &case.call {
        Call::Decode { payload, byte_pos, bit_pos, output } if output.iter().all(|byte| *byte == 0xEE) => {
            (1, &none, payload, *byte_pos, *bit_pos, output.len(), 0, &answer.bytes[..byte_count])
        }
        Call::Encode { input, payload, used, byte_pos, bit_pos } => {
            let after = &answer.bytes[..changed(payload, &answer.bytes)];
            (2, input, payload, *byte_pos, *bit_pos, *used, answer.used, after)
        }
        Call::Clear { payload, used, byte_pos, bit_pos } => {
            (3, &none, payload, *byte_pos, *bit_pos, *used, 0, &answer.bytes[..changed(payload, &answer.bytes)])
        }
        Call::Read { payload, byte_pos, byte_count } => {
            (4, &none, payload, *byte_pos, 0, *byte_count, answer.places[0], &answer.bytes[..])
        }
        _ => return None,
    };
    if case.record.len() != 16 {
        return None;
    }
    let mut bytes =
        vec![code, byte(answer.number as usize)?, byte(case.store.len())?, byte(input.len())?, byte(payload.len())?];
    bytes.extend([byte(after.len())?, byte(lent)?, byte(left)?]);
    bytes.extend(far(byte_pos, 4)?);
    bytes.extend(far(bit_pos, 1)?);
    bytes.extend(u16::try_from(bit_count).ok()?.to_be_bytes());
    bytes.push(byte(byte_count)?);
    bytes.extend(far(expected, 4)?);
    bytes.push(byte(actual)?);
    for part in [&case.record, &case.store, input, payload, after] {
        bytes.extend(part);
    }
    Some(bytes)
}

/// Writes the list to the standard output, and what is in it to the standard error.
pub fn run(seed: u64) -> bool {
    let mut kinds: HashMap<(usize, u32, [u8; 3]), usize> = HashMap::new();
    let (mut list, mut tally, mut number) = (Vec::new(), Tally::new(), 0);
    while tally.calls < ANSWERS {
        let mut case = if number % 4 == 0 { damaged::case(seed, number) } else { random::case(seed, number) };
        number += 1;
        if let Call::Decode { output, .. } = &mut case.call {
            output.fill(0xEE);
        }
        let answer = expected(&case, &mut Met::default());
        let Some(bytes) = stored(&case, &answer) else { continue };
        let kind = (case.call.kind(), answer.number, [case.record[0], case.record[1], case.record[2]]);
        let of_this_kind = kinds.entry(kind).or_default();
        if *of_this_kind < wanted(&case.call, answer.number) {
            *of_this_kind += 1;
            tally.count(&case, &answer);
            list.extend(bytes);
        }
    }
    eprintln!("seed {seed}: {ANSWERS} answers of {number} cases, {} kinds, {} bytes", kinds.len(), list.len());
    for (kind, name) in Call::NAMES[..4].iter().enumerate() {
        eprintln!("{name}: {}", tally.numbers_of(kind));
    }
    io::stdout().write_all(&list).is_ok()
}
