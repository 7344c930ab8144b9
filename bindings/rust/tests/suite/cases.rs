//! The cases of bindings/cases.txt, in the form that its head describes.
use crate::call::{Answer, Call, Case, Described, Number, BLANK};
use crate::values;
use dct::Encoding;
use std::collections::HashMap;
use std::fmt::Debug;
use std::str::FromStr;

const TEXT: &str = include_str!("../../../cases.txt");

/// The words of a line, taken one after the other.
struct Words<'t> {
    words: std::str::SplitWhitespace<'t>,
    names: &'t HashMap<&'static str, Vec<u8>>,
}

impl<'t> Words<'t> {
    fn word(&mut self) -> &'t str {
        self.words.next().expect("a word is missing")
    }

    fn number<N: FromStr<Err: Debug>>(&mut self) -> N {
        self.word().parse().expect("not a number")
    }

    fn encoding(&mut self) -> Encoding {
        Encoding::try_from(self.number::<u32>()).expect("not an encoding")
    }

    fn bytes(&mut self) -> Vec<u8> {
        let names = self.names;
        bytes(self.word(), names)
    }

    fn described(&mut self) -> Described {
        Described { record: self.bytes(), store: self.bytes() }
    }

    fn call(&mut self) -> Call {
        match self.word() {
            "fetch" => Call::Fetch { table: self.bytes(), number: self.number() },
            "decode" => Call::Decode {
                field: self.described(),
                payload: self.bytes(),
                byte_pos: self.number(),
                bit_pos: self.number(),
                room: self.number(),
            },
            "encode" => Call::Encode {
                field: self.described(),
                input: self.bytes(),
                payload: self.bytes(),
                used: self.number(),
                byte_pos: self.number(),
                bit_pos: self.number(),
            },
            "clear" => Call::Clear {
                field: self.described(),
                payload: self.bytes(),
                used: self.number(),
                byte_pos: self.number(),
                bit_pos: self.number(),
            },
            "read" => Call::Read {
                field: self.described(),
                payload: self.bytes(),
                byte_pos: self.number(),
                byte_count: self.number(),
            },
            other => self.call_of_a_value(other),
        }
    }

    fn call_of_a_value(&mut self, name: &str) -> Call {
        match name {
            "value_read" => Call::ValueRead { code: self.number(), width: self.number(), bytes: self.bytes() },
            "value_write" => Call::ValueWrite { code: self.number(), width: self.number(), value: self.number() },
            "decode_value" => Call::DecodeValue {
                field: self.described(),
                encoding: self.encoding(),
                payload: self.bytes(),
                byte_pos: self.number(),
                bit_pos: self.number(),
            },
            "encode_value" => Call::EncodeValue {
                field: self.described(),
                number: Number { encoding: self.encoding(), width: self.number(), value: self.number() },
                payload: self.bytes(),
                used: self.number(),
                byte_pos: self.number(),
                bit_pos: self.number(),
            },
            other => panic!("no call {other}"),
        }
    }

    fn answer(&mut self, call: &Call) -> Answer {
        let number = self.number();
        let mut answer = Answer { number, ..unchanged(call) };
        match (call, number) {
            (_, dct::number::NOT_ENOUGH_DATA) => (answer.expected, answer.actual) = (self.number(), self.number()),
            (_, 1..) => {}
            (Call::Fetch { .. }, 0) => (answer.bytes, answer.store) = (self.bytes(), self.bytes()),
            (Call::Decode { .. }, 0) => {
                answer.bit_count = self.number();
                let read = self.bytes();
                answer.byte_count = read.len();
                answer.bytes[..read.len()].copy_from_slice(&read);
            }
            (Call::Encode { .. } | Call::EncodeValue { .. }, 0) => (answer.used, answer.bytes) = (self.number(), self.bytes()),
            (Call::Clear { .. } | Call::ValueWrite { .. }, 0) => answer.bytes = self.bytes(),
            (Call::ValueRead { .. } | Call::DecodeValue { .. }, 0) => answer.value = self.number(),
            (Call::Read { .. }, 0) => {
                (answer.bit_count, answer.place, answer.bytes) = (self.number(), self.number(), self.bytes());
                answer.byte_count = answer.bytes.len();
            }
        }
        answer
    }
}

/// What a call leaves that does nothing.
fn unchanged(call: &Call) -> Answer {
    match call {
        Call::Decode { room, .. } => Answer { bytes: vec![BLANK; *room], ..Answer::default() },
        Call::Encode { payload, used, .. } | Call::EncodeValue { payload, used, .. } => {
            Answer { used: *used, bytes: payload.clone(), ..Answer::default() }
        }
        Call::Clear { payload, .. } => Answer { bytes: payload.clone(), ..Answer::default() },
        Call::ValueWrite { width, .. } => Answer { bytes: values::blank(*width), ..Answer::default() },
        Call::Fetch { .. } | Call::Read { .. } | Call::ValueRead { .. } | Call::DecodeValue { .. } => Answer::default(),
    }
}

fn hex(digits: &str) -> Vec<u8> {
    assert_eq!(digits.len() % 2, 0, "half a byte in {digits}");
    (0..digits.len()).step_by(2).map(|i| u8::from_str_radix(&digits[i..i + 2], 16).expect("not hex")).collect()
}

fn bytes(word: &str, names: &HashMap<&'static str, Vec<u8>>) -> Vec<u8> {
    if word == "-" {
        return Vec::new();
    }
    let piece = |piece: &str| {
        let (once, count) = piece.split_once('*').unwrap_or((piece, "1"));
        let once = names.get(once).cloned().unwrap_or_else(|| hex(once));
        once.repeat(count.parse().expect("not a count"))
    };
    word.split('+').flat_map(piece).collect()
}

pub fn cases() -> Vec<Case> {
    let (mut names, mut cases) = (HashMap::new(), Vec::new());
    for (number, line) in TEXT.lines().enumerate() {
        if line.is_empty() || line.starts_with('#') {
            continue;
        }
        if let Some((name, meant)) = line.strip_prefix("name ").and_then(|rest| rest.split_once(' ')) {
            names.insert(name, hex(meant.trim()));
            continue;
        }
        let mut words = Words { words: line.split_whitespace(), names: &names };
        let call = words.call();
        assert_eq!(words.word(), "=", "line {}", number + 1);
        let answer = words.answer(&call);
        assert_eq!(words.words.next(), None, "line {}", number + 1);
        cases.push(Case { place: format!("line {} of cases.txt", number + 1), call, answer });
    }
    cases
}
