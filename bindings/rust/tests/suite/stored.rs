//! The stored answers of crates/replay/stdin, in the form that docs/DIFFERENTIAL.md describes.
use crate::call::{Answer, Call, Case, Described, BLANK};

const LIST: &[u8] = include_bytes!("../../../../crates/replay/stdin");
const HEAD: usize = 21;

/// A number of several bytes, of which the upper half stands for the last numbers below 2^64.
fn far(bytes: &[u8]) -> usize {
    let number = plain(bytes);
    let all = 1usize << (8 * bytes.len());
    if number < all / 2 {
        number
    } else {
        number.wrapping_sub(all)
    }
}

fn plain(bytes: &[u8]) -> usize {
    bytes.iter().fold(0, |number, byte| number << 8 | usize::from(*byte))
}

/// The front of the list, cut off it.
fn taken<'l>(rest: &mut &'l [u8], length: usize) -> &'l [u8] {
    let (front, behind) = rest.split_at(length);
    *rest = behind;
    front
}

/// What was there before, with these bytes in front.
fn fronted(before: &[u8], front: &[u8]) -> Vec<u8> {
    [front, &before[front.len()..]].concat()
}

fn next(rest: &mut &[u8]) -> (Call, Answer) {
    let head = taken(rest, HEAD);
    let [record, store, input, payload, after] =
        [16, head[2], head[3], head[4], head[5]].map(|length| taken(rest, usize::from(length)).to_vec());
    let field = Described { record, store };
    let (lent, left) = (usize::from(head[6]), usize::from(head[7]));
    let (byte_pos, bit_pos) = (far(&head[8..12]), far(&head[12..13]));
    let answer = Answer {
        number: u32::from(head[1]),
        bit_count: plain(&head[13..15]),
        byte_count: usize::from(head[15]),
        expected: far(&head[16..20]),
        actual: usize::from(head[20]),
        ..Answer::default()
    };
    match head[0] {
        1 => {
            let bytes = fronted(&vec![BLANK; lent], &after);
            (Call::Decode { field, payload, byte_pos, bit_pos, room: lent }, Answer { bytes, ..answer })
        }
        2 => {
            let bytes = fronted(&payload, &after);
            (Call::Encode { field, input, payload, used: lent, byte_pos, bit_pos }, Answer { used: left, bytes, ..answer })
        }
        3 => {
            let bytes = fronted(&payload, &after);
            (Call::Clear { field, payload, used: lent, byte_pos, bit_pos }, Answer { bytes, ..answer })
        }
        4 => (Call::Read { field, payload, byte_pos, byte_count: lent }, Answer { place: left, bytes: after, ..answer }),
        other => panic!("no call {other}"),
    }
}

pub fn cases() -> Vec<Case> {
    let (mut rest, mut cases) = (LIST, Vec::new());
    while !rest.is_empty() {
        let (call, answer) = next(&mut rest);
        cases.push(Case { place: format!("stored answer {}", cases.len()), call, answer });
    }
    cases
}
