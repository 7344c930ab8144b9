//! Shows that the runs can fail: libraries that are ours but for a small fault, each of which the runs must notice.
use crate::case::{Answer, Call, Case, class};
use crate::exhaustive::{self, Lists};
use crate::field::{Field, UNICODE2, UTF8, Variant, is_numeric};
use crate::library::{call, call_then};
use crate::random::Random;
use crate::tally::Tally;
use crate::{damaged, large, random, value_cases, value_faults};

pub type Given = Result<Answer, &'static str>;

/// The case with its field changed. What the fault does not touch stays as it is, down to the record's bytes.
fn on_field(case: &Case, change: impl Fn(&mut Field)) -> Case {
    let mut case = case.clone();
    if let Ok(field) = Field::parse(&case.record, &case.store)
        && case.store.len() <= 32_768
    {
        let mut changed = field.clone();
        change(&mut changed);
        if changed != field {
            (case.record, case.store) = (changed.record(0), changed.part().to_vec());
        }
    }
    case
}

/// The case with a mask that was changed, given the mask, the bytes of the length and whether it is condensed.
fn on_mask(case: &Case, change: impl Fn(&mut Vec<u8>, usize, bool)) -> Case {
    on_field(case, |field| {
        if let Variant::Standard { bits, mask: Some(mask), condensed } = &mut field.variant {
            change(mask, bits.div_ceil(8).min(64) as usize, *condensed);
        }
    })
}

/// The bytes with zeros in front, to a length.
fn padded(bytes: &mut Vec<u8>, length: usize) {
    let missing = length.saturating_sub(bytes.len());
    bytes.splice(..0, vec![0; missing]);
}

fn is_decode(case: &Case) -> bool {
    matches!(case.call, Call::Decode { .. })
}

fn is_write(case: &Case) -> bool {
    matches!(case.call, Call::Encode { .. } | Call::Clear { .. })
}

/// The library's answer, changed where it has the number.
pub fn on_number(case: &Case, number: u32, change: impl Fn(&mut Answer)) -> Given {
    call(case).map(|mut answer| {
        if answer.number == number {
            change(&mut answer);
        }
        answer
    })
}

pub fn refused(case: &Case, number: u32) -> Given {
    Ok(Answer::refused(number, &case.call))
}

/// What a fault makes of a case.
pub type Faulty = fn(&Case) -> Given;

const READING: [(&str, Faulty); 17] = [
    ("decode: a plain mask met from bit 0", |case| match (&case.call, Field::parse(&case.record, &case.store)) {
        (Call::Decode { .. }, Ok(Field { variant: Variant::Standard { bits, mask: Some(mask), condensed: false }, .. })) => {
            let unmasked = on_field(case, |field| field.variant = Variant::Standard { bits, mask: None, condensed: false });
            on_number(&unmasked, 0, |answer| {
                let count = answer.report[1];
                for i in 0..bits as usize {
                    let byte = mask.len().saturating_sub(i / 8 + 1);
                    if mask.get(byte).is_none_or(|byte| byte >> (i % 8) & 1 == 0) {
                        answer.bytes[count - 1 - i / 8] &= !(1 << (i % 8));
                    }
                }
            })
        }
        _ => call(case),
    }),
    ("decode: a short plain mask ends in zeros", |case| match is_decode(case) {
        true => call(&on_mask(case, |mask, bytes, condensed| {
            if !condensed {
                padded(mask, bytes)
            }
        })),
        false => call(case),
    }),
    ("decode: a condensed mask aligned to the right", |case| match is_decode(case) {
        true => call(&on_mask(case, |mask, bytes, condensed| {
            if condensed {
                padded(mask, bytes)
            }
        })),
        false => call(case),
    }),
    ("decode: ones past the result are not counted", |case| match is_decode(case) {
        true => call(&on_mask(case, |mask, bytes, condensed| {
            if condensed {
                mask.truncate(bytes)
            }
        })),
        false => call(case),
    }),
    ("decode: an empty mask taken for none", |case| match is_decode(case) {
        true => call(&on_field(case, |field| {
            if let Variant::Standard { mask, .. } = &mut field.variant {
                *mask = mask.take().filter(|mask| !mask.is_empty());
            }
        })),
        false => call(case),
    }),
    ("decode: the bit count taken from the output's size", |case| match is_decode(case) {
        true => on_number(case, 0, |answer| answer.report[0] = 8 * answer.report[1]),
        false => call(case),
    }),
    ("decode: 41 found after the output was written", |case| {
        on_number(case, 41, |answer| {
            if let Some(byte) = answer.bytes.first_mut() {
                *byte ^= 1
            }
        })
    }),
    ("decode: the output behind the result set to zero", |case| match is_decode(case) {
        true => on_number(case, 0, |answer| {
            let count = answer.report[1];
            answer.bytes[count..].fill(0);
        }),
        false => call(case),
    }),
    ("decode: 26 before 30", |case| match (&case.call, call(case)?) {
        (Call::Decode { bit_pos: 8.., .. }, answer) if answer.number == 30 => refused(case, 26),
        (_, answer) => Ok(answer),
    }),
    ("30 expects one byte less", |case| on_number(case, 30, |answer| answer.report[2] = answer.report[2].saturating_sub(1))),
    ("30 without what it found", |case| on_number(case, 30, |answer| answer.report[3] = 0)),
    ("34 given as 30", |case| on_number(case, 34, |answer| answer.number = 30)),
    ("decode: a byte past the maximum taken", |case| match is_decode(case) {
        true => call(&on_field(case, |field| {
            if let Variant::MinMax { max: Some(max @ 1..), .. } = &mut field.variant {
                *max = max.saturating_add(2);
            }
        })),
        false => call(case),
    }),
    ("decode: a terminator counts before the minimum", |case| match is_decode(case) {
        true => call(&on_field(case, |field| {
            if let Variant::MinMax { min, max, .. } = &mut field.variant
                && max.is_none_or(|max| max >= *min)
            {
                *min = 0;
            }
        })),
        false => call(case),
    }),
    ("decode: a length field turned", |case| match (case.clone(), Field::parse(&case.record, &case.store)) {
        (Case { record, store, call: Call::Decode { mut payload, byte_pos, bit_pos, output } }, Ok(field)) => {
            if let Variant::Leading(bits) = field.variant
                && let Some(end) = byte_pos.checked_add(bits.div_ceil(8) as usize)
                && let Some(length_field) = payload.get_mut(byte_pos..end)
            {
                length_field.reverse();
            }
            call(&Case { record, store, call: Call::Decode { payload, byte_pos, bit_pos, output } })
        }
        _ => call(case),
    }),
    ("decode: the length field's upper bits not ignored", |case| match is_decode(case) {
        true => call(&on_field(case, |field| match &mut field.variant {
            Variant::Leading(bits @ 1..=64) if field.data_type != UNICODE2 => *bits = bits.next_multiple_of(8),
            _ => {}
        })),
        false => call(case),
    }),
    ("read: an empty part placed at its position", |case| match case.call {
        Call::Read { byte_pos, .. } => on_number(case, 0, |answer| answer.places[0] = byte_pos),
        _ => call(case),
    }),
];

const WRITING: [(&str, Faulty); 16] = [
    ("encode: the field cleared before an unmasked write", |case| match &case.call {
        Call::Encode { input, payload, used, byte_pos, bit_pos } => {
            let Case { record, store, .. } = case.clone();
            let clear = Call::Clear { payload: payload.clone(), used: *used, byte_pos: *byte_pos, bit_pos: *bit_pos };
            let cleared = call(&Case { record: record.clone(), store: store.clone(), call: clear })?;
            let (input, used, byte_pos, bit_pos) = (input.clone(), *used, *byte_pos, *bit_pos);
            let encode = Call::Encode { input, payload: cleared.bytes, used, byte_pos, bit_pos };
            let answer = call(&Case { record, store, call: encode })?;
            let Answer { number, class, .. } = answer;
            Ok(if number == 0 { answer } else { Answer { class, ..Answer::refused(number, &case.call) } })
        }
        _ => call(case),
    }),
    ("encode: the first byte trimmed, not the last", |case| match (case.clone(), Field::parse(&case.record, &case.store)) {
        (Case { call: Call::Encode { mut input, payload, used, byte_pos, bit_pos }, .. }, Ok(mut field)) => {
            if let Variant::Standard { bits: bits @ 9..=64, mask: None, .. } = &mut field.variant
                && is_numeric(field.data_type)
                && *bits % 8 != 0
            {
                padded(&mut input, bits.div_ceil(8) as usize);
                input.drain(..input.len() - bits.div_ceil(8) as usize);
                input[0] &= (1 << (*bits % 8)) - 1;
                *bits = bits.next_multiple_of(8);
            }
            let encode = Call::Encode { input, payload, used, byte_pos, bit_pos };
            call(&on_field(&Case { call: encode, ..case.clone() }, |old| *old = field.clone()))
        }
        _ => call(case),
    }),
    ("encode: short input of a number padded behind", |case| match (case.clone(), Field::parse(&case.record, &case.store)) {
        (Case { record, store, call: Call::Encode { mut input, payload, used, byte_pos, bit_pos } }, Ok(field)) => {
            if let (true, Variant::Standard { bits, .. }) = (is_numeric(field.data_type), &field.variant) {
                input.resize(input.len().max(bits.div_ceil(8).min(8) as usize), 0);
            }
            call(&Case { record, store, call: Call::Encode { input, payload, used, byte_pos, bit_pos } })
        }
        _ => call(case),
    }),
    ("encode: stale bytes left in the gap", |case| match &case.call {
        Call::Encode { payload, used, byte_pos, .. } => on_number(case, 0, |answer| {
            let gap = *used..(*byte_pos).clamp(*used, answer.used.max(*used));
            answer.bytes[gap.clone()].copy_from_slice(&payload[gap]);
        }),
        _ => call(case),
    }),
    ("encode: grown before 26", |case| match &case.call {
        Call::Encode { payload, byte_pos, .. } => on_number(case, 26, |answer| {
            answer.used = answer.used.max(byte_pos.saturating_add(2).min(payload.len()));
        }),
        _ => call(case),
    }),
    ("encode: 40 where the field just fits", |case| match (&case.call, call(case)?) {
        (Call::Encode { payload, used, .. }, answer) if answer.used > *used && answer.used == payload.len() => {
            refused(case, 40)
        }
        (_, answer) => Ok(answer),
    }),
    ("encode: the used length not written", |case| match &case.call {
        Call::Encode { used, .. } => on_number(case, 0, |answer| answer.used = *used),
        _ => call(case),
    }),
    ("encode: a terminator of one byte for Unicode2String", |case| match &case.call {
        Call::Encode { .. } => call(&on_field(case, |field| match field.variant {
            Variant::MinMax { .. } if field.high_low && field.data_type == UNICODE2 => field.data_type = UTF8,
            _ => {}
        })),
        _ => call(case),
    }),
    ("encode: a length field of 64 bits refused", |case| match Field::parse(&case.record, &case.store) {
        Ok(Field { variant: Variant::Leading(64), .. }) => on_number(case, 0, |answer| answer.number = 33),
        _ => call(case),
    }),
    ("encode: old bits left under the mask", |case| match &case.call {
        Call::Encode { payload, used, .. } => on_number(case, 0, |answer| {
            for (new, old) in answer.bytes.iter_mut().zip(&payload[..*used]) {
                *new |= old;
            }
        }),
        _ => call(case),
    }),
    ("encode, clear: a short plain mask ends in zeros", |case| match is_write(case) {
        true => call(&on_mask(case, |mask, bytes, condensed| {
            if !condensed && !mask.is_empty() {
                padded(mask, bytes)
            }
        })),
        false => call(case),
    }),
    ("encode: condensed ones left over become zero", |case| match case.clone() {
        Case { record, store, call: Call::Encode { mut input, payload, used, byte_pos, bit_pos } } => {
            if let Ok(Field { variant: Variant::Standard { mask: Some(mask), condensed: true, .. }, .. }) =
                Field::parse(&record, &store)
            {
                padded(&mut input, mask.len());
            }
            call(&Case { record, store, call: Call::Encode { input, payload, used, byte_pos, bit_pos } })
        }
        _ => call(case),
    }),
    ("encode: counts reported", |case| match case.call {
        Call::Encode { .. } => on_number(case, 0, |answer| answer.report[1] = 1),
        _ => call(case),
    }),
    ("clear: all of the length, mask or not", |case| match case.call {
        Call::Clear { .. } => call(&on_field(case, |field| {
            if let Variant::Standard { mask, condensed: false, .. } = &mut field.variant {
                *mask = None;
            }
        })),
        _ => call(case),
    }),
    ("clear: outside the used length it succeeds", |case| match case.call {
        Call::Clear { .. } => on_number(case, 30, |answer| (answer.number, answer.report) = (0, [0; 4])),
        _ => call(case),
    }),
    ("clear: a byte type succeeds", |case| on_number(case, 39, |answer| answer.number = 0)),
];

const AROUND: [(&str, Faulty); 14] = [
    ("a flag bit of 16 ignored", |case| {
        let mut case = case.clone();
        case.record.iter_mut().skip(1).take(1).for_each(|flags| *flags &= !16);
        call(&case)
    }),
    ("a maximum without its flag ignored", |case| {
        let mut case = case.clone();
        if case.record.len() == 16 && case.record[1] & 8 == 0 {
            case.record[8..12].fill(0);
        }
        call(&case)
    }),
    ("a record of 17 bytes taken", |case| {
        let mut case = case.clone();
        if case.record.len() == 17 {
            case.record.pop();
        }
        call(&case)
    }),
    ("a part that ends a byte past the store", |case| {
        let mut case = case.clone();
        case.store.push(0);
        call(&case)
    }),
    ("a store of 32,769 bytes taken", |case| {
        let mut case = case.clone();
        if case.store.len() == 32_769 {
            case.store.pop();
        }
        call(&case)
    }),
    ("a used length past the payload cut", |case| {
        let mut case = case.clone();
        if let Call::Encode { payload, used, .. } | Call::Clear { payload, used, .. } = &mut case.call {
            *used = payload.len().min(*used);
        }
        call(&case)
    }),
    ("10 before 12", |case| match Field::parse(&case.record, &case.store) {
        Ok(field) if is_numeric(field.data_type) => on_number(case, 12, |answer| answer.number = 10),
        _ => call(case),
    }),
    ("37 of the class of a bad payload", |case| on_number(case, 37, |answer| answer.class = class::BAD_PAYLOAD)),
    ("41 of the class of too little data", |case| on_number(case, 41, |answer| answer.class = class::NOT_ENOUGH_DATA)),
    ("fetch: any version taken", |case| {
        let mut case = case.clone();
        if let Call::Fetch { table, .. } = &mut case.call
            && table.len() >= 5
        {
            (table[3], table[4]) = (0, 1);
        }
        call(&case)
    }),
    ("fetch: bytes after the store taken", |case| {
        let mut case = case.clone();
        if let Call::Fetch { table, .. } = &mut case.call
            && table.len() > 9
        {
            let [count, store] = [5, 7].map(|i| usize::from(u16::from_be_bytes([table[i], table[i + 1]])));
            table.truncate(9 + 16 * count + store);
        }
        call(&case)
    }),
    ("the store written", |case| call_then(case, |lent| lent.spoil(1, false))),
    ("the byte before the payload or the output written", |case| call_then(case, |lent| lent.spoil(2, true))),
    ("the report not written on refusal", |case| {
        call(case).map(|mut answer| {
            if answer.number != 0 {
                answer.report = [7; 4];
            }
            answer
        })
    }),
];

/// The cases among which faults of the codec are looked for: of its four runs, the large ones rarely.
fn mixed(lists: &Lists, short: u64, number: u64) -> Case {
    match number % 64 {
        0 => large::case(1, number),
        _ => match number % 3 {
            0 => random::case(1, number),
            1 => damaged::case(1, number),
            _ => exhaustive::case(lists, Random::new(1, number).below(short as usize) as u64),
        },
    }
}

/// The cases among which faults of the values are looked for: of both runs.
fn mixed_values(number: u64) -> Case {
    match number % 2 {
        0 => value_cases::random(1, number),
        _ => value_cases::short(Random::new(1, number).below(value_cases::SHORT_CALLS as usize) as u64),
    }
}

/// Prints at which of the cases each fault shows, and counts those that do; none where a library without a fault shows one.
fn noticed(without: Faulty, faults: &[&(&str, Faulty)], case: impl Fn(u64) -> Case) -> usize {
    const LOOK: u64 = 200_000;
    let first = |library: Faulty| {
        let mut tally = Tally::new();
        (0..LOOK).find(|number| tally.compare(&case(*number), &library).is_some())
    };
    let quiet = first(without).is_none();
    println!("no fault: {} in {LOOK} calls", if quiet { "nothing noticed" } else { "SOMETHING NOTICED" });
    let mut count = 0;
    for (name, faulty) in faults {
        match first(*faulty) {
            Some(number) => {
                println!("{name}: noticed at call {}", number + 1);
                count += usize::from(quiet);
            }
            None => println!("{name}: NOT NOTICED in {LOOK} calls"),
        }
    }
    count
}

/// Looks for each fault, and answers whether all show.
pub fn run() -> bool {
    let lists = Lists::new();
    let short = exhaustive::count(&lists);
    let faults: Vec<_> = READING.iter().chain(&WRITING).chain(&AROUND).collect();
    let of_values = value_faults::all();
    // taken apart and put together again without a fault, a case must not show one
    let unchanged: Faulty = |case| on_number(&on_mask(case, |_, _, _| {}), 0, |_| {});
    let unchanged_value: Faulty = |case| on_number(&value_faults::on_form(case, |_, _, _| {}), 0, |_| {});
    let count =
        noticed(unchanged, &faults, |number| mixed(&lists, short, number)) + noticed(unchanged_value, &of_values, mixed_values);
    let all = faults.len() + of_values.len();
    println!("{count} of {all} faults noticed");
    count == all
}
