//! What the two calls on values should answer: a model of the four encodings in whole numbers, apart from the library. It reads by
//! the formulas of the textbook. It writes the least pattern that reads as the value, which is looked up among all patterns of a
//! short width and found by the inverse formulas for a long one.
use crate::case::{Answer, Call};
use crate::expected::SLICE;
use std::collections::HashMap;
use std::sync::LazyLock;

pub const TWOS_COMPLEMENT: u32 = 1;
pub const ONES_COMPLEMENT: u32 = 2;
pub const SIGN_AND_MAGNITUDE: u32 = 3;
pub const PACKED_DECIMAL: u32 = 4;

/// The longest width whose patterns are all looked through.
pub const SHORT_WIDTH: usize = 16;

fn is_allowed(encoding: u32, width: usize) -> bool {
    match encoding {
        TWOS_COMPLEMENT | ONES_COMPLEMENT | SIGN_AND_MAGNITUDE => (2..=64).contains(&width),
        PACKED_DECIMAL => (1..=16).any(|digits| width == 4 * digits),
        _ => false,
    }
}

fn power(base: i128, exponent: usize) -> i128 {
    base.pow(exponent as u32)
}

/// The value that a pattern of an allowed width means; none where a decimal digit is above 9. A decimal is the pattern's
/// hexadecimal text, taken for a decimal one.
fn meaning(encoding: u32, width: usize, pattern: i128) -> Option<i128> {
    let half = power(2, width - 1);
    match encoding {
        PACKED_DECIMAL => format!("{pattern:x}").parse().ok(),
        _ if pattern < half => Some(pattern),
        TWOS_COMPLEMENT => Some(pattern - power(2, width)),
        ONES_COMPLEMENT => Some(pattern - (power(2, width) - 1)),
        _ => Some(half - pattern),
    }
}

/// The least and the greatest value.
pub fn range(encoding: u32, width: usize) -> (i128, i128) {
    let half = power(2, width - 1);
    match encoding {
        TWOS_COMPLEMENT => (-half, half - 1),
        PACKED_DECIMAL => (0, power(10, width / 4) - 1),
        _ => (1 - half, half - 1),
    }
}

/// The least pattern that means a value, by the inverse formulas; none outside the range.
fn inverse(encoding: u32, width: usize, value: i128) -> Option<i128> {
    let (least, greatest) = range(encoding, width);
    if value < least || value > greatest {
        return None;
    }
    match encoding {
        PACKED_DECIMAL => i128::from_str_radix(&value.to_string(), 16).ok(),
        _ if value >= 0 => Some(value),
        TWOS_COMPLEMENT => Some(power(2, width) + value),
        ONES_COMPLEMENT => Some(power(2, width) - 1 + value),
        _ => Some(power(2, width - 1) - value),
    }
}

/// The least pattern of each value that a pattern of at most `SHORT_WIDTH` bits means, by encoding and width.
static LEAST: LazyLock<HashMap<(u32, usize, i128), i128>> = LazyLock::new(|| {
    let mut least = HashMap::new();
    for encoding in TWOS_COMPLEMENT..=PACKED_DECIMAL {
        for width in (0..=SHORT_WIDTH).filter(|width| is_allowed(encoding, *width)) {
            for pattern in 0..power(2, width) {
                if let Some(value) = meaning(encoding, width, pattern) {
                    least.entry((encoding, width, value)).or_insert(pattern);
                }
            }
        }
    }
    least
});

/// The least pattern that means a value; none where no pattern does. Long widths rest on the formulas alone, so the short ones hold
/// these to what the search finds. Of a long width the pattern must at least mean the value again.
fn least_pattern(encoding: u32, width: usize, value: i128) -> Option<i128> {
    let pattern = inverse(encoding, width, value);
    if width <= SHORT_WIDTH {
        let found = LEAST.get(&(encoding, width, value)).copied();
        assert_eq!(found, pattern, "the model's formula for {value} in encoding {encoding} of {width} bits");
    } else if let Some(pattern) = pattern {
        let again = meaning(encoding, width, pattern);
        assert_eq!(again, Some(value), "the model's pattern for {value} in encoding {encoding} of {width} bits");
    }
    pattern
}

/// A pattern in so many bytes, the most significant first.
fn bytes_of(pattern: i128, length: usize) -> Vec<u8> {
    (0..length).rev().map(|place| (pattern / power(256, place) % 256) as u8).collect()
}

/// The answer to a call on a value.
pub fn expected(call: &Call) -> Answer {
    let (Call::ReadValue { encoding, width, bytes, .. } | Call::WriteValue { encoding, width, bytes, .. }) = call else {
        unreachable!("not a call on a value")
    };
    let (encoding, width) = (*encoding, *width);
    if bytes.len() > SLICE {
        return Answer::refused(43, call);
    }
    if !is_allowed(encoding, width) || bytes.len() != width.div_ceil(8) {
        return Answer::refused(58, call);
    }
    if let Call::WriteValue { value, .. } = call {
        return match least_pattern(encoding, width, i128::from(*value)) {
            Some(pattern) => Answer { bytes: bytes_of(pattern, bytes.len()), ..Answer::default() },
            None => Answer::refused(59, call),
        };
    }
    let pattern = bytes.iter().fold(0, |pattern, byte| 256 * pattern + i128::from(*byte)) % power(2, width);
    match meaning(encoding, width, pattern) {
        Some(value) => Answer { value: i64::try_from(value).expect("64 bits hold it"), ..Answer::default() },
        None => Answer::refused(60, call),
    }
}
