//! Calls drawn at random, from a seed and a number: the numbers that they are made of crowd where rules change.
use crate::case::{Call, Case};
use crate::field::{
    ASCII, BYTE_FIELD, END_OF_PDU, FLOAT32, FLOAT64, Field, HEX_FF, INT32, UINT32, UNICODE2, UTF8, Variant, ZERO,
};

/// SplitMix64.
pub struct Random(u64);

impl Random {
    pub fn new(seed: u64, number: u64) -> Random {
        let mut random = Random(seed.wrapping_mul(0xD6E8_FEB8_6659_FD93) ^ number.wrapping_mul(0xA076_1D64_78BD_642F));
        random.next();
        random
    }

    pub fn next(&mut self) -> u64 {
        self.0 = self.0.wrapping_add(0x9E37_79B9_7F4A_7C15);
        let z = (self.0 ^ (self.0 >> 30)).wrapping_mul(0xBF58_476D_1CE4_E5B9);
        let z = (z ^ (z >> 27)).wrapping_mul(0x94D0_49BB_1331_11EB);
        z ^ (z >> 31)
    }

    /// A number below a bound.
    pub fn below(&mut self, bound: usize) -> usize {
        ((u128::from(self.next()) * bound as u128) >> 64) as usize
    }

    /// True so many times of a hundred.
    pub fn percent(&mut self, chance: usize) -> bool {
        self.below(100) < chance
    }

    pub fn pick<T: Copy>(&mut self, of: &[T]) -> T {
        of[self.below(of.len())]
    }

    /// Bytes that are all alike, all but alike, or of any value.
    pub fn bytes(&mut self, length: usize) -> Vec<u8> {
        let usual = self.pick(&[0x00, 0xFF, 0x0F, 0x80, 0x01, 0x5A]);
        let other = self.pick(&[0, 10, 50, 100, 100]);
        (0..length).map(|_| if self.percent(other) { self.next() as u8 } else { usual }).collect()
    }
}

const BITS: [u32; 16] = [0, 1, 7, 8, 9, 12, 15, 16, 17, 31, 32, 33, 63, 64, 65, 72];
const FAR_BITS: [u32; 8] = [128, 160, 255, 256, 1 << 23, 1 << 31, u32::MAX - 15, u32::MAX];

fn bits(random: &mut Random, data_type: u8) -> u32 {
    match data_type {
        FLOAT32 if random.percent(80) => 32,
        FLOAT64 if random.percent(80) => 64,
        UNICODE2 if random.percent(70) => 16 * random.below(6) as u32,
        _ if random.percent(60) => random.pick(&BITS),
        _ if random.percent(95) => random.below(81) as u32,
        _ => random.pick(&FAR_BITS),
    }
}

/// A mask that is absent, empty, short, exact or long.
fn mask(random: &mut Random, bits: u32) -> Option<Vec<u8>> {
    let exact = bits.div_ceil(8).min(24) as usize;
    let length = match random.below(10) {
        0..4 => return None,
        4 => 0,
        5 | 6 => random.below(exact.max(1)),
        7 | 8 => exact,
        _ => exact + 1 + random.below(4),
    };
    Some(random.bytes(length))
}

pub fn field(random: &mut Random) -> Field {
    let any = [INT32, UINT32, FLOAT32, ASCII, UTF8, UNICODE2, BYTE_FIELD, FLOAT64];
    let bytes = [ASCII, UTF8, UNICODE2, UNICODE2, BYTE_FIELD];
    let code = random.pick(&[1, 1, 2, 2, 3, 3, 3, 3, 3, 4]);
    let data_type = if code < 3 && random.percent(96) { random.pick(&bytes) } else { random.pick(&any) };
    let variant = match code {
        1 => Variant::Leading(if random.percent(60) { random.pick(&[8, 16, 4, 12, 24, 32]) } else { bits(random, data_type) }),
        2 => {
            let mut limit = || random.pick(&[0, 1, 2, 2, 3, 4, 6, 8, 70_000, u32::MAX]);
            let (min, max) = (limit() / 2, limit());
            let max = if random.percent(60) || data_type == UNICODE2 { Some(max) } else { None };
            Variant::MinMax { min, max, termination: random.pick(&[END_OF_PDU, ZERO, HEX_FF]) }
        }
        3 => {
            let bits = bits(random, data_type);
            Variant::Standard { bits, mask: mask(random, bits), condensed: random.percent(50) }
        }
        _ => {
            let length = random.below(4);
            Variant::Param(random.bytes(length))
        }
    };
    Field { data_type, high_low: random.percent(50), variant }
}

/// A byte position near the start, around an end, past it, or far away.
fn byte_pos(random: &mut Random, end: usize) -> usize {
    match random.below(20) {
        0..8 => 0,
        8..14 => random.below(end + 1),
        14..18 => (end + random.below(4)).saturating_sub(1),
        18 => random.pick(&[65_534, 65_535, 65_536, 70_000, 1 << 32]),
        _ => random.pick(&[usize::MAX, usize::MAX - 1, usize::MAX - 8, usize::MAX / 2, usize::MAX / 2 + 1, 1 << 46]),
    }
}

fn bit_pos(random: &mut Random, data_type: u8) -> usize {
    let numeric = crate::field::is_numeric(data_type);
    match random.below(20) {
        0..9 => 0,
        _ if !numeric && random.percent(90) => 0,
        9..18 => random.below(8),
        18 => 8 + random.below(3),
        _ => random.pick(&[7, 8, 15, 64, 200, usize::MAX, usize::MAX - 7, 1 << 40]),
    }
}

/// A length around the one that a field takes.
fn around(random: &mut Random, exact: usize) -> usize {
    match random.below(8) {
        0..3 => exact,
        3..5 => (exact + random.below(3)).saturating_sub(1),
        5 | 6 => random.below(exact + 4),
        _ => exact + random.below(12),
    }
}

/// The bytes that a field takes, more or less.
fn taken(random: &mut Random, field: &Field) -> usize {
    match &field.variant {
        Variant::Standard { bits, .. } => bits.div_ceil(8).min(24) as usize,
        Variant::Leading(bits) => bits.div_ceil(8).min(12) as usize + random.below(6),
        Variant::MinMax { min, max, .. } => *min.max(&max.unwrap_or(4).min(8)).min(&12) as usize + random.below(3),
        Variant::Param(_) => random.below(6),
    }
}

/// A payload in which length fields and terminators are likely.
fn payload(random: &mut Random, field: &Field, at: usize, length: usize) -> Vec<u8> {
    let mut payload = random.bytes(length);
    match &field.variant {
        Variant::Leading(bits) if random.percent(85) => {
            let end = at.saturating_add(bits.div_ceil(8) as usize);
            if let Some(length_field) = payload.get_mut(at.min(length)..end.min(length)) {
                length_field.fill(0);
                // the count in the last byte, as pairs turned have it in the one before, or anywhere
                let anywhere = random.below(8);
                let from_last = random.pick(&[0, 0, 0, 0, 0, 1, 1, anywhere]);
                if let Some(byte) = length_field.iter_mut().rev().nth(from_last) {
                    *byte = random.below(8) as u8;
                }
                // bits above the field's are not looked at
                if let (true, 1..) = (random.percent(30), bits % 8)
                    && let Some(byte) = length_field.first_mut()
                {
                    *byte |= (random.next() as u8) << (bits % 8);
                }
            }
        }
        Variant::MinMax { .. } => {
            for byte in &mut payload {
                if random.percent(40) {
                    *byte = random.pick(&[0x00, 0xFF]);
                }
            }
        }
        _ => {}
    }
    payload
}

/// A call on a field, with all that it takes.
fn call(random: &mut Random, field: &Field) -> Call {
    let taken = taken(random, field);
    let bit_pos = bit_pos(random, field.data_type);
    let spare = random.below(5);
    let byte_pos = byte_pos(random, spare);
    let length = around(random, taken + byte_pos.min(spare));
    let payload = payload(random, field, byte_pos, length);
    match random.below(20) {
        0..9 => {
            let length = if random.percent(70) { 32 } else { around(random, taken) };
            Call::Decode { payload, byte_pos, bit_pos, output: random.bytes(length) }
        }
        9..17 => {
            let length = around(random, taken);
            let input = random.bytes(length);
            let mut payload = payload;
            let used = if random.percent(3) { payload.len() + random.below(3) } else { random.below(payload.len() + 1) };
            let room = if random.percent(80) { taken + 12 } else { random.below(3) };
            payload.extend(random.bytes(room));
            Call::Encode { input, payload, used: if random.percent(1) { usize::MAX } else { used }, byte_pos, bit_pos }
        }
        17 | 18 => {
            let used = if random.percent(70) { payload.len() } else { random.below(payload.len() + 2) };
            Call::Clear { payload, used, byte_pos, bit_pos }
        }
        _ => {
            let byte_count =
                if random.percent(90) { random.below(taken + 2) } else { random.pick(&[65_536, usize::MAX, 1 << 61]) };
            Call::Read { payload, byte_pos, byte_count }
        }
    }
}

/// The case with a number, of a seed.
pub fn case(seed: u64, number: u64) -> Case {
    let mut random = Random::new(seed, number);
    let field = field(&mut random);
    let front = random.below(3);
    let mut store = random.bytes(front);
    let record = field.record(store.len() as u16);
    store.extend(field.part());
    let behind = random.below(2);
    store.extend(random.bytes(behind));
    let call = call(&mut random, &field);
    Case { record, store, call }
}
