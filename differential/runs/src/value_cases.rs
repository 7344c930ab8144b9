//! Calls on values: every pattern and every value of up to 16 bits, and random ones, which crowd at the ends of the ranges.
use crate::case::{Call, Case};
use crate::exhaustive::Choices;
use crate::random::Random;
use crate::values::{self, PACKED_DECIMAL};

/// How many patterns of 0 to `values::SHORT_WIDTH` bits there are.
const PATTERNS: usize = (2 << values::SHORT_WIDTH) - 1;
/// The codes of all short calls: the four, and one more on either side.
const CODES: usize = 6;
/// The short reads: each pattern under three kinds of bits above it, in three sizes.
const READS: u64 = (PATTERNS * CODES * 3 * 3) as u64;
/// The short writes: twice as many values, in three sizes.
const WRITES: u64 = (2 * PATTERNS * CODES * 3) as u64;
/// How many short calls there are.
pub const SHORT_CALLS: u64 = READS + WRITES;

fn case_of(call: Call) -> Case {
    Case { record: vec![], store: vec![], call }
}

/// A pattern with other bits above its width, in so many bytes.
fn laid(pattern: u128, width: usize, above: u128, length: usize) -> Vec<u8> {
    let low = ((above << width.min(127)) | pattern).to_be_bytes();
    let mut bytes = vec![above as u8; length.saturating_sub(low.len())];
    bytes.extend(&low[low.len().saturating_sub(length)..]);
    bytes
}

/// The width and the pattern that a number says: in binary it is a one, and then the pattern.
fn marked(number: usize) -> (usize, usize) {
    let width = number.ilog2() as usize;
    (width, number - (1 << width))
}

/// The size that a width takes, one byte less or one more.
fn size_around(c: &mut Choices, width: usize) -> usize {
    (width.div_ceil(8) + c.below(3)).saturating_sub(1)
}

/// The short call with a number.
pub fn short(number: u64) -> Case {
    let mut random = Random::new(0, number);
    if number < READS {
        let c = &mut Choices::new(number);
        let (width, pattern) = marked(c.below(PATTERNS) + 1);
        let encoding = c.below(CODES) as u32;
        let above = *c.of(&[0, u128::MAX, u128::from(random.next())]);
        let bytes = laid(pattern as u128, width, above, size_around(c, width));
        return case_of(Call::ReadValue { encoding, width, bytes, before: random.next() as i64 });
    }
    let c = &mut Choices::new(number - READS);
    // from -2^width up to below 2^width, which goes beyond every range
    let (wider, pattern) = marked(c.below(2 * PATTERNS) + 2);
    let width = wider - 1;
    let value = pattern as i64 - (1 << width);
    let encoding = c.below(CODES) as u32;
    let bytes = random.bytes(size_around(c, width));
    case_of(Call::WriteValue { encoding, width, value, bytes })
}

const OTHER_CODES: [u32; 10] = [0, 5, 6, 255, 256, 257, 260, 0x1_0001, 1 << 31, u32::MAX];
const WIDTHS: [usize; 12] = [20, 24, 31, 32, 33, 40, 60, 62, 63, 64, 65, 66];
/// Some of them are a good width with bits above, or wrap where 7 is added.
const FAR_WIDTHS: [usize; 12] = [
    67,
    72,
    128,
    256 + 32,
    65_536 + 64,
    8 * 65_535,
    8 * 65_536,
    (1 << 32) + 32,
    1 << 63,
    (1 << 63) + 16,
    usize::MAX - 7,
    usize::MAX,
];

fn encoding(random: &mut Random) -> u32 {
    if random.percent(96) { 1 + random.below(4) as u32 } else { random.pick(&OTHER_CODES) }
}

fn width(random: &mut Random, encoding: u32) -> usize {
    match random.below(20) {
        0..12 if encoding == PACKED_DECIMAL => 4 * (5 + random.below(12)),
        0..12 => 17 + random.below(50),
        12..17 => random.pick(&WIDTHS),
        17 | 18 => random.below(17),
        _ => random.pick(&FAR_WIDTHS),
    }
}

/// A size around the one that a width takes, or at the limit of slices. Of a far width it is what its lowest bits take.
fn size(random: &mut Random, width: usize) -> usize {
    let right = width.wrapping_add(7) / 8 % 16;
    match random.below(400) {
        0 => random.pick(&[65_534, 65_535, 65_536, 65_537]),
        1..40 => random.pick(&[0, 1, 8, 9, right + 1, right.saturating_sub(1), right + 8]),
        _ => right,
    }
}

/// Decimal digits, from some place on zeros.
fn digits(random: &mut Random, count: usize) -> u128 {
    let count = if random.percent(50) { count } else { random.below(count + 1) };
    (0..count).fold(0, |digits, _| 16 * digits + random.pick(&[0, 1, 4, 5, 7, 8, 9, 9]))
}

fn pattern(random: &mut Random, width: usize) -> u128 {
    const NINES: u128 = u128::MAX / 15 * 9;
    let ones = (1 << width.min(127)) - 1;
    let count = (width / 4).clamp(1, 31);
    let digit = 4 * random.below(count);
    let pattern = match random.below(16) {
        0 => 0,
        1 => ones,
        2 => ones / 2,
        3 => ones / 2 + 1,
        4 => ones / 2 + 2,
        5 => 1 << random.below(width.min(127)),
        6 => NINES,
        7 => NINES + (1 << digit),
        8..12 => digits(random, count),
        12 => digits(random, count) & !(15 << digit) | (random.pick(&[10, 10, 11, 15]) << digit),
        _ => u128::from(random.next()),
    };
    pattern & ones
}

fn value(random: &mut Random, encoding: u32, width: usize) -> i64 {
    let (least, greatest) = values::range(encoding, width.clamp(2, 64));
    let near = random.below(5) as i128 - 2;
    let sign = random.pick(&[1, -1]);
    let value = match random.below(12) {
        0 | 1 => least + near,
        2 | 3 => greatest + near,
        4 => near,
        5 => near + i128::from(random.pick(&[i64::MIN, i64::MAX])),
        6 => near + (sign << random.below(64)),
        7 => near + sign * 10i128.pow(random.below(19) as u32),
        8..11 => least + i128::from(random.next()) % (greatest - least + 1),
        _ => i128::from(random.next() as i64 >> random.below(64)),
    };
    value.clamp(i64::MIN.into(), i64::MAX.into()) as i64
}

/// The random call with a number, of a seed.
pub fn random(seed: u64, number: u64) -> Case {
    let mut random = Random::new(seed.rotate_left(16), number);
    let encoding = encoding(&mut random);
    let width = width(&mut random, encoding);
    let length = size(&mut random, width);
    if random.percent(50) {
        let any = random.next().into();
        let above = random.pick(&[0, u128::MAX, u128::MAX / 15 * 10, any]);
        let bytes = laid(pattern(&mut random, width), width, above, length);
        return case_of(Call::ReadValue { encoding, width, bytes, before: random.next() as i64 });
    }
    let value = value(&mut random, encoding, width);
    case_of(Call::WriteValue { encoding, width, value, bytes: random.bytes(length) })
}
