//! Values read and written, by the code of an encoding, and the sizes of bytes that no case of cases.txt has.
use crate::call::{Answer, BLANK};
use dct::{raw, Encoding, Refusal};

pub const ENCODINGS: [Encoding; 4] =
    [Encoding::TwosComplement, Encoding::OnesComplement, Encoding::SignMagnitude, Encoding::PackedDecimal];

/// What the bytes of a value hold before it is written.
pub fn blank(width: usize) -> Vec<u8> {
    vec![BLANK; width.div_ceil(8).min(8)]
}

/// A code that no encoding has can be asked for only as C does, and only C sees the value that a refusal has to leave.
pub fn read(code: u32, width: usize, bytes: &[u8]) -> Answer {
    const BEFORE: i64 = 0x5A5A_5A5A_5A5A_5A5A;
    let mut value = BEFORE;
    // SAFETY: the pointer comes with the length of its slice, and nothing else is written than the value.
    let number = unsafe { raw::dct_value_read(code, width, bytes.as_ptr(), bytes.len(), &mut value) };
    assert!(number == dct::number::OK || value == BEFORE, "{number} has changed the value, {width} bits by the code {code}");
    match Encoding::try_from(code) {
        Ok(encoding) => dct::value_read(encoding, width, bytes).into(),
        Err(_) => Answer { number, ..Answer::default() },
    }
}

pub fn written(code: u32, width: usize, value: i64) -> Answer {
    let mut bytes = blank(width);
    if let Ok(encoding) = Encoding::try_from(code) {
        let got = dct::value_write(encoding, width, value, &mut bytes);
        return Answer { bytes, ..got.into() };
    }
    // SAFETY: as in `read`.
    let number = unsafe { raw::dct_value_write(code, width, value, bytes.as_mut_ptr(), bytes.len()) };
    Answer { number, bytes, ..Answer::default() }
}

#[test]
fn encodings_by_their_codes() {
    for encoding in ENCODINGS {
        assert_eq!(Encoding::try_from(encoding as u32), Ok(encoding));
    }
    for code in [0, 5, 256, 257, 260, u32::MAX] {
        assert_eq!(Encoding::try_from(code), Err(Refusal { number: 58, expected: 0, actual: 0 }), "{code}");
    }
}

#[test]
fn bytes_of_another_size() {
    for encoding in ENCODINGS {
        for (width, size, number) in [
            (8, 0, 58),
            (8, 2, 58),
            (12, 1, 58),
            (12, 3, 58),
            (64, 7, 58),
            (64, 9, 58),
            (65, 9, 58),
            (0, 0, 58),
            (usize::MAX, 0, 58),
            (8, 65535, 58),
            (8, 65536, 43),
            (usize::MAX, 65536, 43),
        ] {
            let mut bytes = vec![BLANK; size];
            let got = dct::value_write(encoding, width, 0, &mut bytes);
            assert_eq!(got.map_err(|refusal| refusal.number), Err(number), "{encoding:?}, {width} bits in {size} bytes");
            assert!(bytes.iter().all(|byte| *byte == BLANK), "{encoding:?}, {width} bits in {size} bytes");
        }
    }
}

/// The least and the greatest number of a width.
fn ends(encoding: Encoding, width: usize) -> [i64; 2] {
    let half = 1i128 << (width - 1);
    let ends = match encoding {
        Encoding::TwosComplement => [-half, half - 1],
        Encoding::PackedDecimal => [0, 10i128.pow(width as u32 / 4) - 1],
        _ => [1 - half, half - 1],
    };
    ends.map(|end| i64::try_from(end).expect("64 bits hold it"))
}

#[test]
fn every_width_under_a_condensed_mask() {
    // UInt32, high-low, 64 bits, under the mask of 8 bytes that the store holds
    let record = [2, 7, 3, 0, 0, 0, 0, 64, 0, 0, 0, 0, 0, 0, 0, 8];
    for (width, encoding) in (2..=64).flat_map(|width| ENCODINGS.map(|encoding| (width, encoding))) {
        if encoding == Encoding::PackedDecimal && width % 4 != 0 {
            continue;
        }
        let mask = (u64::MAX >> (64 - width)).to_be_bytes();
        let field = dct::Field { record: &record, store: &mask };
        for value in ends(encoding, width) {
            let (mut payload, mut used) = ([BLANK; 8], 8);
            dct::encode_value(field, encoding, width, value, &mut payload, &mut used, 0, 0).expect("it is in the range");
            assert_eq!(dct::decode_value(field, encoding, &payload, 0, 0), Ok(value), "{encoding:?}, {width} bits");
            let beside = u64::from_be_bytes(payload) & !u64::from_be_bytes(mask);
            assert_eq!(beside, u64::from_be_bytes([BLANK; 8]) & !u64::from_be_bytes(mask), "{encoding:?}, {width} bits");
        }
    }
}
