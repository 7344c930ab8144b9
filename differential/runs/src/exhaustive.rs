//! Every call on short inputs: all types, variants and orders, bit positions 0 to 9, lengths 0 to 20 and some beyond, payloads,
//! inputs and masks of 0 to 3 bytes of telling values.
use crate::case::{Call, Case};
use crate::field::{Field, Variant};
use crate::random::Random;

/// A number taken apart into choices: the choices of a family have the same sizes each time, so that they number its cases.
pub struct Choices {
    rest: u64,
    cases: u64,
}

impl Choices {
    pub fn new(number: u64) -> Choices {
        Choices { rest: number, cases: 1 }
    }

    pub fn below(&mut self, size: usize) -> usize {
        let choice = self.rest % size as u64;
        self.rest /= size as u64;
        self.cases *= size as u64;
        choice as usize
    }

    pub fn of<'a, T>(&mut self, list: &'a [T]) -> &'a T {
        &list[self.below(list.len())]
    }
}

/// Lists of choices.
pub struct Lists {
    payloads: Vec<Vec<u8>>,
    masks: Vec<(Option<Vec<u8>>, bool)>,
    length_fields: Vec<Vec<u8>>,
    terminated: Vec<Vec<u8>>,
    lengths: Vec<u32>,
}

/// All words of at most so many of the bytes.
fn words(bytes: &[u8], longest: usize) -> Vec<Vec<u8>> {
    let mut words = vec![vec![]];
    let mut last = words.clone();
    for _ in 0..longest {
        last = last.iter().flat_map(|word| bytes.iter().map(move |byte| [&word[..], &[*byte]].concat())).collect();
        words.extend(last.clone());
    }
    words
}

impl Lists {
    pub fn new() -> Lists {
        let masks = words(&[0x00, 0x3C, 0xFF], 3);
        let with = |condensed| masks.iter().map(move |mask| (Some(mask.clone()), condensed));
        Lists {
            payloads: words(&[0x00, 0xA5, 0xFF], 3),
            masks: with(false).chain(with(true)).chain([(None, false), (None, true)]).collect(),
            length_fields: words(&[0x00, 0x01, 0x02, 0x03, 0xFF], 3),
            terminated: words(&[0x00, 0x41, 0xFF], 4),
            lengths: (0..=20).chain([32, 63, 64, 65, 72]).collect(),
        }
    }
}

const INPUTS: [&[u8]; 10] =
    [&[], &[0xFF], &[0x5A], &[0x01], &[0x5A, 0xC3], &[0xFF; 2], &[0x80, 0x01], &[0x12, 0x34, 0x56], &[0xFF; 3], &[0x41; 16]];
/// What is written on: the used bytes. Behind them stand `STALE` ones.
const BEFORE: [&[u8]; 7] = [&[], &[0x00], &[0xFF], &[0x00; 2], &[0xA5; 3], &[0xFF; 3], &[0x00, 0xFF, 0x00, 0xFF]];
const STALE: [u8; 24] = [0xEE; 24];

fn any_type(c: &mut Choices) -> (u8, bool) {
    (c.below(8) as u8 + 1, c.below(2) == 1)
}

fn standard(c: &mut Choices, lists: &Lists) -> Field {
    let (data_type, high_low) = any_type(c);
    let (mask, condensed) = c.of(&lists.masks).clone();
    Field { data_type, high_low, variant: Variant::Standard { bits: *c.of(&lists.lengths), mask, condensed } }
}

fn leading(c: &mut Choices, lists: &Lists) -> Field {
    let (data_type, high_low) = any_type(c);
    Field { data_type, high_low, variant: Variant::Leading(*c.of(&lists.lengths)) }
}

fn min_max(c: &mut Choices, _: &Lists) -> Field {
    let (data_type, high_low) = any_type(c);
    let max = c.below(7) as u32;
    let (min, termination) = (c.below(5) as u32, c.below(3) as u8 + 1);
    Field { data_type, high_low, variant: Variant::MinMax { min, max: (max < 6).then_some(max), termination } }
}

fn param(c: &mut Choices, _: &Lists) -> Field {
    let (data_type, high_low) = any_type(c);
    Field { data_type, high_low, variant: Variant::Param(b"N".to_vec()) }
}

/// How a field of some variant is called. The room of output and payload is drawn by the case's number.
type Fielded = fn(&mut Choices, &Lists) -> Field;
type Called = fn(&mut Choices, &Lists, &mut Random) -> Call;

fn decode(c: &mut Choices, payloads: &[Vec<u8>], byte_positions: usize, random: &mut Random) -> Call {
    let payload = c.of(payloads).clone();
    let (byte_pos, bit_pos) = (c.below(byte_positions), c.below(10));
    Call::Decode { payload, byte_pos, bit_pos, output: vec![0xEE; random.pick(&[16, 16, 16, 0, 1, 2])] }
}

fn encode(c: &mut Choices, _: &Lists, random: &mut Random) -> Call {
    let (input, before) = (c.of(&INPUTS).to_vec(), *c.of(&BEFORE));
    let (byte_pos, bit_pos) = (c.below(2), c.below(10));
    let room = random.pick(&[24, 24, 24, 0, 1, 2]);
    Call::Encode { input, payload: [before, &STALE[..room]].concat(), used: before.len(), byte_pos, bit_pos }
}

fn clear(c: &mut Choices, _: &Lists, random: &mut Random) -> Call {
    let (before, byte_pos, bit_pos) = (*c.of(&BEFORE), c.below(2), c.below(10));
    let payload = [before, &STALE[..random.below(3)]].concat();
    Call::Clear { payload, used: before.len(), byte_pos, bit_pos }
}

fn read(c: &mut Choices, _: &Lists, _: &mut Random) -> Call {
    Call::Read { payload: c.of(&BEFORE).to_vec(), byte_pos: c.below(6), byte_count: c.below(6) }
}

const FAMILIES: [(Fielded, Called); 12] = [
    (standard, |c, lists, random| decode(c, &lists.payloads, 2, random)),
    (standard, encode),
    (standard, clear),
    (leading, |c, lists, random| decode(c, &lists.length_fields, 3, random)),
    (leading, encode),
    (leading, clear),
    (min_max, |c, lists, random| decode(c, &lists.terminated, 6, random)),
    (min_max, encode),
    (min_max, clear),
    (param, |c, lists, random| decode(c, &lists.payloads, 2, random)),
    (param, encode),
    (param, read),
];

fn made(family: usize, number: u64, lists: &Lists) -> (Case, u64) {
    let (fielded, called) = FAMILIES[family];
    let mut choices = Choices::new(number);
    let mut random = Random::new(family as u64, number);
    let field = fielded(&mut choices, lists);
    let call = called(&mut choices, lists, &mut random);
    (Case { record: field.record(0), store: field.part().to_vec(), call }, choices.cases)
}

/// How many cases there are.
pub fn count(lists: &Lists) -> u64 {
    (0..FAMILIES.len()).map(|family| made(family, 0, lists).1).sum()
}

/// The case with a number.
pub fn case(lists: &Lists, mut number: u64) -> Case {
    for family in 0..FAMILIES.len() {
        let (case, cases) = made(family, number, lists);
        if number < cases {
            return case;
        }
        number -= cases;
    }
    panic!("no case has this number")
}
