//! Holds the crate to the stored answers of the Rust, to the cases that all bindings share, and to include/dct.h.
mod call;
mod cases;
mod stored;
mod values;

use call::Case;
use dct::{Class, Refusal};
use std::collections::HashSet;
use std::sync::LazyLock;

const HEADER: &str = include_str!("../../../../include/dct.h");
const NUMBERS: &str = include_str!(concat!(env!("OUT_DIR"), "/numbers.rs"));

static STORED: LazyLock<Vec<Case>> = LazyLock::new(stored::cases);
static CASES: LazyLock<Vec<Case>> = LazyLock::new(cases::cases);

/// Makes the calls of one name and compares each answer in full.
fn hold(cases: &[Case], name: &str) {
    let cases: Vec<&Case> = cases.iter().filter(|case| case.call.name() == name).collect();
    assert!(!cases.is_empty(), "no {name} among the cases");
    let mut different = 0;
    for Case { place, call, answer } in &cases {
        let made = call.made();
        if made != *answer {
            different += 1;
            if different <= 3 {
                println!("{place}, {name}\n  gives {:.400}\n  not   {:.400}", format!("{made:?}"), format!("{answer:?}"));
            }
        }
    }
    assert_eq!(different, 0, "of {} cases of {name}", cases.len());
}

#[test]
fn stored_decode() {
    hold(&STORED, "decode");
}

#[test]
fn stored_encode() {
    hold(&STORED, "encode");
}

#[test]
fn stored_clear() {
    hold(&STORED, "clear");
}

#[test]
fn stored_read() {
    hold(&STORED, "read");
}

#[test]
fn case_fetch() {
    hold(&CASES, "fetch");
}

#[test]
fn case_decode() {
    hold(&CASES, "decode");
}

#[test]
fn case_encode() {
    hold(&CASES, "encode");
}

#[test]
fn case_clear() {
    hold(&CASES, "clear");
}

#[test]
fn case_read() {
    hold(&CASES, "read");
}

#[test]
fn case_value_read() {
    hold(&CASES, "value_read");
}

#[test]
fn case_value_write() {
    hold(&CASES, "value_write");
}

#[test]
fn case_decode_value() {
    hold(&CASES, "decode_value");
}

#[test]
fn case_encode_value() {
    hold(&CASES, "encode_value");
}

/// Name, number and sentence of each line of an enum of the header, told by its first name.
fn listed(first: &str) -> Vec<(String, u32, String)> {
    let numbered = |line: &str| {
        let (name, rest) = line.trim().strip_prefix("DCT_")?.split_once(" = ")?;
        let (number, rest) = rest.split_once("/*")?;
        let number = number.trim().trim_end_matches(',').parse().ok()?;
        Some((name.to_owned(), number, rest.strip_suffix("*/")?.trim().to_owned()))
    };
    let start = HEADER.find(&format!("    DCT_{first} = ")).expect("not in the header");
    HEADER[start..].lines().take_while(|line| *line != "};").filter_map(numbered).collect()
}

fn header() -> Vec<(String, u32, String)> {
    listed("OK")
}

#[test]
fn encodings_of_the_header() {
    let ours = values::ENCODINGS.map(|encoding| (format!("{encoding:?}").to_uppercase(), encoding as u32));
    let named = |(name, code, _): (String, u32, String)| (name.replace('_', ""), code);
    assert_eq!(listed("TWOS_COMPLEMENT").into_iter().map(named).collect::<Vec<_>>(), ours);
}

#[test]
fn every_number_arises() {
    assert_eq!(STORED.len(), 20_000);
    let arose: HashSet<u32> = STORED.iter().chain(CASES.iter()).map(|case| case.call.made().number).collect();
    let missing: Vec<_> = header().into_iter().filter(|(_, number, _)| !arose.contains(number)).collect();
    assert!(missing.is_empty(), "these never arose: {missing:?}");
}

#[test]
fn numbers_of_the_header() {
    let written = |line: &str| {
        let (name, rest) = line.trim().split_once(" = ")?;
        let (number, rest) = rest.split_once(", \"")?;
        Some((name.to_owned(), number.parse().ok()?, rest.strip_suffix("\";")?.to_owned()))
    };
    let ours: Vec<(String, u32, String)> = NUMBERS.lines().filter_map(written).collect();
    assert_eq!(ours, header());
    assert_eq!(ours.len() + classes().len() + listed("TWOS_COMPLEMENT").len(), HEADER.matches("    DCT_").count());
    for (_, number, sentence) in ours {
        assert_eq!(Refusal { number, expected: 0, actual: 0 }.meaning(), sentence);
    }
    assert_eq!((dct::number::OK, dct::number::NOT_ENOUGH_DATA, dct::number::MALFORMED_TABLE), (0, 30, 45));
}

/// Name and letter of each class of the header.
fn classes() -> Vec<(String, u8)> {
    let lettered = |line: &str| {
        let (name, rest) = line.trim().strip_prefix("DCT_CLASS_")?.split_once(" = '")?;
        Some((name.replace('_', "").to_lowercase(), *rest.as_bytes().first()?))
    };
    HEADER.lines().filter_map(lettered).collect()
}

/// The column of classes of RULES 10.
fn class_in_the_table(number: u32) -> Option<Class> {
    match number {
        10 | 37 => Some(Class::InvalidDatabase),
        30 => Some(Class::NotEnoughData),
        39..=45 | 58..=60 => Some(Class::Ours),
        _ if number != dct::number::OK && dct::number::ALL.contains(&number) => Some(Class::BadPayload),
        _ => None,
    }
}

#[test]
fn classes_of_the_numbers() {
    let ours = [Class::BadPayload, Class::NotEnoughData, Class::InvalidDatabase, Class::Ours];
    assert_eq!(classes(), ours.map(|class| (format!("{class:?}").to_lowercase(), class as u8)));
    let edges = (0..32).flat_map(|bit| [(1u32 << bit) - 1, 1 << bit, (1 << bit) + 10, (1 << bit) + 30]);
    for number in (0..=1000).chain(edges).chain(u32::MAX - 256..=u32::MAX) {
        let class = Refusal { number, expected: 0, actual: 0 }.class();
        assert_eq!(class, class_in_the_table(number), "{number}");
        // SAFETY: it takes no pointer.
        assert_eq!(class.map_or(0, |class| class as u32), unsafe { dct::raw::dct_class(number) }, "{number}");
    }
}

#[test]
fn refusal_as_text() {
    let text = |number| {
        let error: Box<dyn std::error::Error> = Refusal { number, expected: 5, actual: 2 }.into();
        error.to_string()
    };
    let short = "refusal 30: the payload is too short: expected and actual say by how much (expected 5, actual 2)";
    assert_eq!(text(30), short);
    assert_eq!(text(12), "refusal 12: the maximum is 0");
    assert_eq!(text(77), "refusal 77: an unknown number");
    // a `main` that returns it prints it so
    assert_eq!(format!("{:?}", Refusal { number: 30, expected: 5, actual: 2 }), short);
}
