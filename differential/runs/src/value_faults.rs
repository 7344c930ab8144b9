//! Libraries that are ours but for a small fault in the calls on values.
use crate::case::{Answer, Call, Case, class};
use crate::faults::{Faulty, Given, on_number, refused};
use crate::library::{call, call_then};
use crate::values::{ONES_COMPLEMENT, PACKED_DECIMAL, SIGN_AND_MAGNITUDE, TWOS_COMPLEMENT};

/// The case with its encoding, its width and its bytes changed.
pub fn on_form(case: &Case, change: impl Fn(&mut u32, &mut usize, &mut Vec<u8>)) -> Case {
    let mut case = case.clone();
    if let Call::ReadValue { encoding, width, bytes, .. } | Call::WriteValue { encoding, width, bytes, .. } = &mut case.call {
        change(encoding, width, bytes);
    }
    case
}

/// The library's answer; where it has the number, and another case has an answer without a refusal, that one.
fn instead(case: &Case, number: u32, other: &Case) -> Given {
    let answer = call(case)?;
    if answer.number == number {
        let taken = call(other)?;
        if taken.number == 0 {
            return Ok(taken);
        }
    }
    Ok(answer)
}

/// The sign bit in the first byte.
fn sign(width: usize) -> u8 {
    1 << ((width - 1) % 8)
}

/// The bits of the first byte up to the sign.
fn own(width: usize) -> u8 {
    sign(width) | (sign(width) - 1)
}

/// The library's answer; where it wrote a zero in the encoding, other bytes: the first one by the width, and those behind it.
fn second_zero(case: &Case, code: u32, first: fn(usize) -> u8, behind: u8) -> Given {
    match case.call {
        Call::WriteValue { encoding, width, value: 0, .. } if encoding == code => on_number(case, 0, |answer| {
            answer.bytes.fill(behind);
            answer.bytes[0] = first(width);
        }),
        _ => call(case),
    }
}

/// The library's answer; where it refused a write with the number, zeros in place of the bytes.
fn written_on(case: &Case, number: u32) -> Given {
    match case.call {
        Call::WriteValue { .. } => on_number(case, number, |answer| answer.bytes.fill(0)),
        _ => call(case),
    }
}

/// The bytes with each digit of 10 below the width made 0, and what these tens were worth.
fn without_tens(bytes: &mut [u8], width: usize) -> i64 {
    let mut worth = 0;
    for digit in 0..width / 4 {
        let place = bytes.len() - 1 - digit / 2;
        let shift = 4 * (digit % 2);
        if bytes[place] >> shift & 15 == 10 {
            bytes[place] &= !(15 << shift);
            worth += 10i64.pow(digit as u32 + 1);
        }
    }
    worth
}

const READING: [(&str, Faulty); 9] = [
    ("value read: the sign bit taken one too low", |case| match case.call {
        Call::ReadValue { encoding: TWOS_COMPLEMENT, width, .. } => on_number(case, 0, |answer| {
            let above = 65 - width;
            answer.value = answer.value << above >> above;
        }),
        _ => call(case),
    }),
    ("value read: one's complement without its end-around", |case| match case.call {
        Call::ReadValue { .. } => call(&on_form(case, |encoding, _, _| {
            if *encoding == ONES_COMPLEMENT {
                *encoding = TWOS_COMPLEMENT
            }
        })),
        _ => call(case),
    }),
    ("value read: bits above the width not ignored", |case| match case.call {
        Call::ReadValue { width: 2..=64, .. } => {
            instead(case, 0, &on_form(case, |_, width, _| *width = width.next_multiple_of(8)))
        }
        _ => call(case),
    }),
    ("value read: a digit above the width looked at", |case| match &case.call {
        Call::ReadValue { encoding: PACKED_DECIMAL, bytes, .. } if bytes.first().is_some_and(|byte| *byte >= 0xA0) => {
            on_number(case, 0, |answer| *answer = Answer::refused(60, &case.call))
        }
        _ => call(case),
    }),
    ("value read: a digit of 10 accepted", |case| match &case.call {
        Call::ReadValue { encoding: PACKED_DECIMAL, width, bytes, .. } if call(case)?.number == 60 => {
            let mut without = bytes.clone();
            let worth = without_tens(&mut without, *width);
            let case = on_form(case, |_, _, bytes| bytes.clone_from(&without));
            on_number(&case, 0, |answer| answer.value += worth)
        }
        _ => call(case),
    }),
    ("value read: 60 before 58", |case| match &case.call {
        Call::ReadValue { encoding: PACKED_DECIMAL, width, .. } if call(case)?.number == 58 => {
            let right = on_form(case, |_, width, bytes| bytes.resize(width.div_ceil(8).min(8), 0));
            let digits = *width <= 64 && call(&right)?.number == 60;
            if digits { refused(case, 60) } else { call(case) }
        }
        _ => call(case),
    }),
    ("value read: the bytes turned", |case| match case.call {
        Call::ReadValue { .. } => call(&on_form(case, |_, _, bytes| bytes.reverse())),
        _ => call(case),
    }),
    ("value read: a 0 not written", |case| match case.call {
        Call::ReadValue { before, .. } => on_number(case, 0, |answer| {
            if answer.value == 0 {
                answer.value = before;
            }
        }),
        _ => call(case),
    }),
    ("value read: the value written on refusal", |case| match case.call {
        Call::ReadValue { .. } => call(case).map(|mut answer| {
            if answer.number != 0 {
                answer.value = 0;
            }
            answer
        }),
        _ => call(case),
    }),
];

const WRITING: [(&str, Faulty); 13] = [
    ("value write: the second zero of one's complement", |case| second_zero(case, ONES_COMPLEMENT, own, 0xFF)),
    ("value write: the second zero of sign and magnitude", |case| second_zero(case, SIGN_AND_MAGNITUDE, sign, 0)),
    ("value write: one above the range taken", |case| {
        let mut below = case.clone();
        if let Call::WriteValue { value: value @ 1.., .. } = &mut below.call {
            *value -= 1;
        }
        instead(case, 59, &below)
    }),
    ("value write: one below the range taken in two's complement", |case| {
        let mut above = case.clone();
        if let Call::WriteValue { encoding: TWOS_COMPLEMENT, value: value @ ..=-1, .. } = &mut above.call {
            *value += 1;
        }
        instead(case, 59, &above)
    }),
    ("value write: -1 taken in packed decimal", |case| {
        let mut zero = case.clone();
        if let Call::WriteValue { encoding: PACKED_DECIMAL, value: value @ -1, .. } = &mut zero.call {
            *value = 0;
        }
        instead(case, 59, &zero)
    }),
    ("value write: one's complement in the range of two's", |case| match case.call {
        Call::WriteValue { encoding: ONES_COMPLEMENT, .. } => {
            instead(case, 59, &on_form(case, |encoding, _, _| *encoding = TWOS_COMPLEMENT))
        }
        _ => call(case),
    }),
    ("value write: the least i64 negated to itself", |case| match case.call {
        Call::WriteValue { encoding: SIGN_AND_MAGNITUDE, width, value: i64::MIN, .. } => on_number(case, 59, |answer| {
            (answer.number, answer.class) = (0, 0);
            answer.bytes.fill(0);
            answer.bytes[0] = sign(width);
        }),
        _ => call(case),
    }),
    ("value write: 59 before 58", |case| match &case.call {
        Call::WriteValue { width: 0..=64, .. } if call(case)?.number == 58 => {
            let right = on_form(case, |_, width, bytes| bytes.resize(width.div_ceil(8), 0));
            let outside = call(&right)?.number == 59;
            if outside { refused(case, 59) } else { call(case) }
        }
        _ => call(case),
    }),
    ("value write: the bytes turned", |case| match case.call {
        Call::WriteValue { .. } => on_number(case, 0, |answer| answer.bytes.reverse()),
        _ => call(case),
    }),
    ("value write: bits above the width left as they came", |case| match &case.call {
        Call::WriteValue { width, bytes, .. } => on_number(case, 0, |answer| {
            answer.bytes[0] |= bytes[0] & !own(*width);
        }),
        _ => call(case),
    }),
    ("value write: the bytes written on refusal 59", |case| written_on(case, 59)),
    ("value write: the bytes written on refusal 58", |case| written_on(case, 58)),
    ("value write: the bytes written on refusal 43", |case| written_on(case, 43)),
];

const AROUND: [(&str, Faulty); 10] = [
    ("values: 58 before 43", |case| on_number(case, 43, |answer| answer.number = 58)),
    ("values: 43 from 65,537 bytes on", |case| match &case.call {
        Call::ReadValue { bytes, .. } | Call::WriteValue { bytes, .. } if bytes.len() == 65_536 => {
            on_number(case, 43, |answer| answer.number = 58)
        }
        _ => call(case),
    }),
    ("values: a width of 1 bit taken", |case| {
        instead(case, 58, &on_form(case, |_, width, _| *width = if *width == 1 { 2 } else { *width }))
    }),
    ("values: a width of 65 bits taken", |case| {
        let narrower = on_form(case, |encoding, width, bytes| {
            if *encoding != PACKED_DECIMAL && *width == 65 && bytes.len() == 9 {
                *width = 64;
                bytes.remove(0);
            }
        });
        instead(case, 58, &narrower)
    }),
    ("values: a decimal width of 6 bits taken", |case| {
        instead(case, 58, &on_form(case, |_, width, _| *width = if *width == 6 { 4 } else { *width }))
    }),
    ("values: a width cut to 32 bits", |case| call(&on_form(case, |_, width, _| *width %= 1 << 32))),
    ("values: an encoding cut to 8 bits", |case| call(&on_form(case, |encoding, _, _| *encoding %= 256))),
    ("values: a byte too many taken", |case| {
        let shorter = on_form(case, |_, width, bytes| {
            if bytes.len() == width.div_ceil(8) + 1 {
                bytes.remove(0);
            }
        });
        instead(case, 58, &shorter)
    }),
    ("values: 58 of the class of a bad payload", |case| on_number(case, 58, |answer| answer.class = class::BAD_PAYLOAD)),
    ("values: the byte before the bytes written", |case| call_then(case, |lent| lent.spoil(0, true))),
];

/// All of them.
pub fn all() -> Vec<&'static (&'static str, Faulty)> {
    READING.iter().chain(&WRITING).chain(&AROUND).collect()
}
