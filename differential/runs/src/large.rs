//! Slices up to their limits and one byte past them.
use crate::case::{Call, Case};
use crate::field::{ASCII, BYTE_FIELD, Field, UINT32, UNICODE2, UTF8, Variant};
use crate::random::{self, Random};

const LENGTHS: [usize; 12] = [65_535, 65_535, 65_534, 65_536, 32_768, 32_769, 4_096, 1_025, 1_024, 256, 255, 254];

fn length(random: &mut Random) -> usize {
    if random.percent(70) { random.pick(&LENGTHS) } else { random.below(65_536) }
}

fn field(random: &mut Random, length: usize) -> Field {
    let mut data_type = random.pick(&[ASCII, UTF8, UNICODE2, UNICODE2, BYTE_FIELD]);
    let bits = 8 * (length as u32 - random.below(3).min(length) as u32);
    let variant = match random.below(8) {
        0 | 1 => Variant::Leading(random.pick(&[16, 16, 24, 32, 64, 8, 12])),
        2 | 3 => Variant::MinMax {
            min: random.pick(&[0, 2, 65_534, length as u32 & !1]),
            max: random.percent(70).then_some(random.pick(&[65_534, 65_536, 70_000, length as u32 & !1])),
            termination: random.below(3) as u8 + 1,
        },
        4 | 5 => {
            let bytes = random.pick(&[0, 1, 255, 4_096, 32_768, 32_768, length.min(32_768)]);
            let mask = random.percent(40).then(|| random.bytes(bytes));
            Variant::Standard { bits, mask, condensed: random.percent(50) }
        }
        6 => {
            data_type = UINT32;
            Variant::Standard { bits: random.pick(&[12, 32, 64]), mask: None, condensed: false }
        }
        _ => Variant::Param(random.bytes(12)),
    };
    Field { data_type, high_low: random.percent(50), variant }
}

/// The largest legal table, or one around it: 1,024 records, or one more, and a store as long as may be, or one byte longer.
fn fetch(random: &mut Random) -> Call {
    let count = random.pick(&[1_024, 1_024, 1_025, 1_023]);
    let store_length = random.pick(&[32_768, 32_768, 32_769, 0, 12_000]);
    let mut table = b"DCT\x00\x01".to_vec();
    table.extend((count as u16).to_be_bytes());
    table.extend((store_length as u16).to_be_bytes());
    for _ in 0..count {
        let field = random::field(random);
        table.extend(field.record(random.below(store_length + 1).min(65_535) as u16));
    }
    table.extend(random.bytes(store_length));
    if random.percent(10) {
        let past = random.pick(&[65_535, 65_536, table.len() + 1]);
        table.resize(past, 0);
    }
    Call::Fetch { table, number: random.pick(&[0, 1, count - 1, count, count / 2]) }
}

fn call(random: &mut Random, field: &Field, length: usize) -> Call {
    let mut payload = random.bytes(length);
    let byte_pos = random.pick(&[0, 0, 0, 1, 2, length / 2, length.saturating_sub(1), length, 65_535, 65_536]);
    match random.below(8) {
        0..3 => {
            if let Variant::Leading(bits) = field.variant {
                let count = length.saturating_sub(byte_pos + bits.div_ceil(8) as usize) + random.pick(&[0, 0, 0, 1]);
                for (i, byte) in payload.iter_mut().skip(byte_pos).take(bits.div_ceil(8) as usize).enumerate() {
                    *byte = (count as u128 >> (8 * (bits.div_ceil(8) as usize - 1 - i))) as u8;
                }
            }
            let room = random.pick(&[65_535, 65_535, 65_535, 65_536, length, length.saturating_sub(1)]);
            Call::Decode { payload, byte_pos, bit_pos: 0, output: vec![0xEE; room] }
        }
        3..6 => {
            let used = random.pick(&[0, 0, length, length / 2, length.saturating_sub(1), length + 1]);
            let past = random.below(9);
            let short = if random.percent(30) { random.below(9) } else { length.saturating_sub(byte_pos + past) };
            Call::Encode { input: random.bytes(short), payload, used, byte_pos, bit_pos: 0 }
        }
        6 => Call::Clear { payload, used: random.pick(&[length, length / 2]), byte_pos, bit_pos: random.below(9) },
        _ => {
            Call::Read { payload, byte_pos, byte_count: random.pick(&[0, 1, length, length.saturating_sub(byte_pos), 65_536]) }
        }
    }
}

/// The case with a number, of a seed.
pub fn case(seed: u64, number: u64) -> Case {
    let mut random = Random::new(seed.rotate_left(32), number);
    if random.percent(10) {
        return Case { record: vec![], store: vec![], call: fetch(&mut random) };
    }
    let length = length(&mut random);
    let field = field(&mut random, length);
    let mut record = field.record(0);
    let mut store = field.part().to_vec();
    match random.below(40) {
        0 => store.resize(random.pick(&[32_768, 32_769]), 0),
        1 => record.resize(random.pick(&[17, 65_535, 65_536]), 0),
        _ => {}
    }
    let call = call(&mut random, &field, length);
    Case { record, store, call }
}
