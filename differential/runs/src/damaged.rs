//! Good inputs with a fault put into them: records, stores, payloads and tables of which a byte is changed or cut off.
use crate::case::{Call, Case};
use crate::random::{self, Random};

/// A slice with a byte changed, dropped or added, or a bit turned.
fn damage(random: &mut Random, bytes: &mut Vec<u8>) {
    let place = random.below(bytes.len().max(1));
    match random.below(5) {
        0 => drop(bytes.pop()),
        1 => bytes.push(random.next() as u8),
        _ if bytes.is_empty() => {}
        2 | 3 => bytes[place] ^= 1 << random.below(8),
        _ => bytes[place] = random.pick(&[0x00, 0x01, 0x02, 0x05, 0x09, 0x10, 0x7F, 0xFF]),
    }
}

/// A table of some records with one store, and the number to fetch.
fn fetch(random: &mut Random) -> Call {
    let count = random.pick(&[0, 1, 1, 2, 3, 5]);
    let (mut records, mut store) = (Vec::<u8>::new(), Vec::<u8>::new());
    for _ in 0..count {
        let field = random::field(random);
        records.extend(field.record(store.len() as u16));
        store.extend(field.part());
    }
    let mut table = b"DCT\x00\x01".to_vec();
    table.extend((count as u16).to_be_bytes());
    table.extend((store.len() as u16).to_be_bytes());
    table.extend(records);
    table.extend(store);
    if random.percent(50) {
        // the header more often than the rest
        let mut front = table.split_off(random.pick(&[9, table.len().min(25)]).min(table.len()));
        damage(random, &mut table);
        table.append(&mut front);
    } else if random.percent(50) {
        damage(random, &mut table);
    }
    Call::Fetch {
        table,
        number: if random.percent(95) { random.below(count + 1) } else { random.pick(&[usize::MAX, 1024, 1 << 60]) },
    }
}

/// The case with a number, of a seed.
pub fn case(seed: u64, number: u64) -> Case {
    let mut random = Random::new(!seed, number);
    if random.percent(20) {
        return Case { record: vec![], store: vec![], call: fetch(&mut random) };
    }
    let mut case = random::case(seed ^ 0xDA3A_6ED0, number);
    match random.below(10) {
        0..5 => damage(&mut random, &mut case.record),
        5 | 6 => damage(&mut random, &mut case.store),
        _ => match &mut case.call {
            Call::Decode { payload, .. } | Call::Read { payload, .. } => damage(&mut random, payload),
            Call::Encode { payload, used, .. } | Call::Clear { payload, used, .. } if random.percent(50) => {
                *used = payload.len().saturating_add(random.below(3)).saturating_sub(1);
            }
            Call::Encode { input: payload, .. } | Call::Clear { payload, .. } => damage(&mut random, payload),
            Call::Fetch { table, .. } => damage(&mut random, table),
            Call::ReadValue { .. } | Call::WriteValue { .. } => unreachable!("no random case is a call on a value"),
        },
    }
    case
}
