//! Our library beside the original: the same calls, both release builds, in one process and in turns; and the instructions
//! that each takes.
use crate::field::{ASCII, BYTE_FIELD, Field, UINT32, UNICODE2, Variant, ZERO};
use crate::original_side::coded_type;
use dct::raw::{Report, dct_clear, dct_decode, dct_encode, dct_read};
use original::diag_coded_type::DiagCodedType;
use std::hint::black_box;
use std::process::Command;
use std::time::Instant;

/// A call to be timed. The field starts at byte 1 of the payload.
struct Work {
    name: &'static str,
    kind: Kind,
    field: Field,
    bit_pos: usize,
    payload: Vec<u8>,
    input: Vec<u8>,
}

#[derive(Clone, Copy, PartialEq)]
enum Kind {
    Decode,
    Encode,
    Clear,
    Read,
}

const BYTE_POS: usize = 1;

fn standard(data_type: u8, bits: u32, mask: Option<Vec<u8>>, condensed: bool) -> Field {
    Field { data_type, high_low: true, variant: Variant::Standard { bits, mask, condensed } }
}

/// Bytes without a zero among them.
fn filled(length: usize) -> Vec<u8> {
    (0..length).map(|i| (i * 37 % 255) as u8 + 1).collect()
}

fn works() -> Vec<Work> {
    use Kind::{Clear, Decode, Encode, Read};
    let ascii = |variant| Field { data_type: ASCII, high_low: true, variant };
    let leading = ascii(Variant::Leading(8));
    let to_zero = ascii(Variant::MinMax { min: 0, max: None, termination: ZERO });
    let param = Field { data_type: BYTE_FIELD, high_low: true, variant: Variant::Param(b"Length".to_vec()) };
    let plain = || standard(UINT32, 16, Some(vec![0x0F, 0xF0]), false);
    let condensed = || standard(BYTE_FIELD, 512, Some([0xF0, 0x3C].repeat(32)), true);
    let low_high = || Field { high_low: false, ..standard(UINT32, 32, None, false) };
    let pairs = || Field { high_low: false, ..standard(UNICODE2, 8192, None, false) };
    let long_mask = || standard(BYTE_FIELD, 8192, Some([0xF0, 0x3C].repeat(512)), false);
    let long_condensed = || standard(BYTE_FIELD, 8192, Some([0xF0, 0x3C].repeat(512)), true);
    let nothing = ascii(Variant::MinMax { min: 0, max: None, termination: ZERO });
    let behind_length = [&[0, 200][..], &filled(200)].concat();
    let before_zero = [&[0][..], &filled(200), &[0]].concat();
    let work =
        |name, kind, field, bit_pos, payload: Vec<u8>, input: Vec<u8>| Work { name, kind, field, bit_pos, payload, input };
    vec![
        work("numeric, 16 bits", Decode, standard(UINT32, 16, None, false), 0, filled(8), vec![]),
        work("numeric, 16 bits", Encode, standard(UINT32, 16, None, false), 0, filled(8), filled(2)),
        work("numeric, 32 bits low-high", Decode, low_high(), 0, filled(8), vec![]),
        work("numeric, 32 bits low-high", Encode, low_high(), 0, filled(8), filled(4)),
        work("16 bits, plain mask", Decode, plain(), 0, filled(8), vec![]),
        work("16 bits, plain mask", Encode, plain(), 0, filled(8), filled(2)),
        work("12 bits at bit 4", Decode, standard(UINT32, 12, None, false), 4, filled(8), vec![]),
        work("12 bits at bit 4", Encode, standard(UINT32, 12, None, false), 4, filled(8), filled(2)),
        work("ByteField, 1,024 bytes", Decode, standard(BYTE_FIELD, 8192, None, false), 0, filled(1025), vec![]),
        work("ByteField, 1,024 bytes", Encode, standard(BYTE_FIELD, 8192, None, false), 0, filled(1025), filled(1024)),
        work("ByteField, 1,024 bytes, plain mask", Decode, long_mask(), 0, filled(1025), vec![]),
        work("ByteField, 1,024 bytes, plain mask", Encode, long_mask(), 0, filled(1025), filled(1024)),
        work("ByteField, 1,024 bytes, condensed", Decode, long_condensed(), 0, filled(1025), vec![]),
        work("ByteField, 1,024 bytes, condensed", Encode, long_condensed(), 0, filled(1025), filled(512)),
        work("Unicode2String low-high, 1,024 bytes", Decode, pairs(), 0, filled(1025), vec![]),
        work("Unicode2String low-high, 1,024 bytes", Encode, pairs(), 0, filled(1025), filled(1024)),
        work("Leading, 200 bytes", Decode, leading.clone(), 0, behind_length.clone(), vec![]),
        work("Leading, 200 bytes", Encode, leading, 0, behind_length, filled(200)),
        work("MinMax Zero, 200 bytes", Decode, to_zero.clone(), 0, before_zero.clone(), vec![]),
        work("MinMax Zero, 200 bytes", Encode, to_zero, 0, before_zero, filled(200)),
        work("condensed, 64 bytes", Decode, condensed(), 0, filled(65), vec![]),
        work("condensed, 64 bytes", Encode, condensed(), 0, filled(65), filled(32)),
        work("Param, 200 bytes", Read, param.clone(), 0, filled(201), filled(200)),
        work("Param, 200 bytes", Encode, param, 0, filled(201), filled(200)),
        work("nothing (no bit is moved)", Read, nothing.clone(), 0, filled(8), vec![]),
        work("nothing (no bit is moved)", Decode, nothing, 0, filled(1), vec![]),
        work("12 bits at bit 4", Clear, standard(UINT32, 12, None, false), 4, filled(8), vec![]),
        work("16 bits, plain mask", Clear, plain(), 0, filled(8), vec![]),
    ]
}

impl Work {
    fn label(&self) -> String {
        let kind = match self.kind {
            Kind::Decode => "decode",
            Kind::Encode => "encode",
            Kind::Clear => "clear",
            Kind::Read => "read",
        };
        format!("{kind} {}", self.name)
    }

    /// Calls the library so many times.
    fn ours(&self, times: usize) {
        let (record, store) = (self.field.record(0), self.field.part().to_vec());
        let (mut payload, mut output) = (self.payload.clone(), vec![0u8; 2048]);
        let (mut report, mut used, mut place) = (Report::default(), payload.len(), 0);
        let (r, s, i) = (record.as_ptr(), store.as_ptr(), self.input.as_ptr());
        let (m, n, k) = (record.len(), store.len(), self.input.len());
        let (p, q) = (payload.as_mut_ptr(), payload.len());
        let (o, l) = (output.as_mut_ptr(), output.len());
        for _ in 0..times {
            let number = unsafe {
                match self.kind {
                    Kind::Decode => dct_decode(r, m, s, n, p, q, BYTE_POS, self.bit_pos, o, l, &mut report),
                    Kind::Encode => dct_encode(r, m, s, n, i, k, p, q, &mut used, BYTE_POS, self.bit_pos, &mut report),
                    Kind::Clear => dct_clear(r, m, s, n, p, q, used, BYTE_POS, self.bit_pos, &mut report),
                    Kind::Read => dct_read(r, m, s, n, p, q, BYTE_POS, k, &mut place, &mut report),
                }
            };
            assert_eq!(black_box(number), 0);
        }
    }

    /// The original's coded type. A clear is its encode of nothing under the field's mask, all ones if it has none.
    fn original(&self) -> DiagCodedType {
        let mut field = self.field.clone();
        if let (Kind::Clear, Variant::Standard { bits, mask: mask @ None, .. }) = (self.kind, &mut field.variant) {
            *mask = Some(vec![0xFF; bits.div_ceil(8) as usize]);
        }
        coded_type(&field).unwrap_or_else(|_| panic!("the original refuses {}", self.name))
    }

    /// The inputs that the original takes by value, made beforehand since that is the caller's work.
    fn inputs(&self, times: usize) -> Vec<Vec<u8>> {
        let wanted = if matches!(self.kind, Kind::Encode | Kind::Clear) { times } else { 0 };
        (0..wanted).map(|_| self.input.clone()).collect()
    }

    /// Calls the original so many times.
    fn theirs(&self, coded: &DiagCodedType, times: usize, inputs: Vec<Vec<u8>>, payload: &mut Vec<u8>) {
        let mut inputs = inputs.into_iter();
        for _ in 0..times {
            let answered = match self.kind {
                Kind::Decode => black_box(coded.decode(payload, BYTE_POS, self.bit_pos)).is_ok(),
                Kind::Read => black_box(coded.decode_with_runtime_byte_length(payload, BYTE_POS, self.input.len())).is_ok(),
                Kind::Encode | Kind::Clear => {
                    black_box(coded.encode(inputs.next().unwrap(), payload, BYTE_POS, self.bit_pos)).is_ok()
                }
            };
            assert!(answered);
        }
    }

    /// Nanoseconds a call, ours and the original's: the least of the rounds, in which the two take turns.
    fn time(&self) -> (f64, f64) {
        let coded = self.original();
        let mut payload = self.payload.clone();
        let started = Instant::now();
        self.theirs(&coded, 100, self.inputs(100), &mut payload);
        let times = (2_000_000 / started.elapsed().as_nanos().max(1) as usize * 100).clamp(200, 100_000);
        let (mut ours, mut theirs) = (f64::MAX, f64::MAX);
        for _ in 0..40 {
            let started = Instant::now();
            self.ours(times);
            ours = ours.min(started.elapsed().as_nanos() as f64 / times as f64);
            let inputs = self.inputs(times);
            let started = Instant::now();
            self.theirs(&coded, times, inputs, &mut payload);
            theirs = theirs.min(started.elapsed().as_nanos() as f64 / times as f64);
        }
        (ours, theirs)
    }

    /// Instructions of one side for so many calls, by callgrind.
    fn instructions(&self, side: &str, times: usize) -> Option<i64> {
        let own = std::env::current_exe().ok()?;
        let run = Command::new("valgrind")
            .args(["--tool=callgrind", "--callgrind-out-file=/dev/null"])
            .arg(own)
            .args(["spin", &self.label(), side, &times.to_string()])
            .output()
            .ok()?;
        let said = String::from_utf8_lossy(&run.stderr).into_owned();
        let line = said.lines().find(|line| line.contains("Collected :"))?;
        line.rsplit(' ').next()?.parse().ok()
    }

    /// Instructions a call: what more calls take more. What making the original's inputs takes is left out.
    fn counted(&self) -> Option<(i64, i64)> {
        let (few, many) = (50, 150);
        let each = |side| Some((self.instructions(side, many)? - self.instructions(side, few)?) / (many - few) as i64);
        Some((each("ours")?, each("theirs")? - each("inputs")?))
    }
}

/// One side of one call, so many times, for callgrind to count.
pub fn spin(label: &str, side: &str, times: usize) {
    let works = works();
    let work = works.iter().find(|work| work.label() == label).expect("a call of the list");
    let mut payload = work.payload.clone();
    match side {
        "ours" => work.ours(times),
        "theirs" => work.theirs(&work.original(), times, work.inputs(times), &mut payload),
        _ => drop(black_box(work.inputs(times))),
    }
}

/// Prints the table, and answers whether ours is nowhere slower at moving bits.
pub fn run() -> bool {
    println!(
        "| call | ours, ns | the Rust, ns | ours to the Rust's | ours, instructions | the Rust, instructions | ours to the Rust's |"
    );
    println!("|---|---:|---:|---:|---:|---:|---:|");
    let mut nowhere_slower = true;
    for work in works() {
        let (ours, theirs) = work.time();
        print!("| {} | {ours:.0} | {theirs:.0} | {:.2} |", work.label(), ours / theirs);
        match work.counted() {
            Some((ours, theirs)) => println!(" {ours} | {theirs} | {:.2} |", ours as f64 / theirs as f64),
            None => println!(" valgrind is missing | | |"),
        }
        // what is left of a call that moves no bit is to read the record, which the original does not
        nowhere_slower &= ours <= theirs || work.name.starts_with("nothing");
    }
    nowhere_slower
}
