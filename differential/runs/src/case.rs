//! A call of the library with all that is lent to it, and the whole of its answer.
use std::fmt;
use std::ops::Range;

#[derive(Clone, Debug)]
pub struct Case {
    pub record: Vec<u8>,
    pub store: Vec<u8>,
    pub call: Call,
}

#[derive(Clone, Debug)]
pub enum Call {
    Decode { payload: Vec<u8>, byte_pos: usize, bit_pos: usize, output: Vec<u8> },
    Encode { input: Vec<u8>, payload: Vec<u8>, used: usize, byte_pos: usize, bit_pos: usize },
    Clear { payload: Vec<u8>, used: usize, byte_pos: usize, bit_pos: usize },
    Read { payload: Vec<u8>, byte_pos: usize, byte_count: usize },
    Fetch { table: Vec<u8>, number: usize },
    ReadValue { encoding: u32, width: usize, bytes: Vec<u8>, before: i64 },
    WriteValue { encoding: u32, width: usize, value: i64, bytes: Vec<u8> },
}

impl Call {
    pub const NAMES: [&'static str; 7] = ["decode", "encode", "clear", "read", "fetch", "value read", "value write"];
    /// Where the names of the two calls on values stand in `NAMES`.
    pub const VALUES: Range<usize> = 5..7;

    /// Where the call's name stands in `NAMES`.
    pub fn kind(&self) -> usize {
        match self {
            Call::Decode { .. } => 0,
            Call::Encode { .. } => 1,
            Call::Clear { .. } => 2,
            Call::Read { .. } => 3,
            Call::Fetch { .. } => 4,
            Call::ReadValue { .. } => 5,
            Call::WriteValue { .. } => 6,
        }
    }
}

/// The letters of the classes, as RULES 10 has them.
pub mod class {
    pub const BAD_PAYLOAD: u32 = b'B' as u32;
    pub const NOT_ENOUGH_DATA: u32 = b'N' as u32;
    pub const INVALID_DATABASE: u32 = b'D' as u32;
    pub const OURS: u32 = b'P' as u32;
    pub const ALL: [u32; 4] = [BAD_PAYLOAD, NOT_ENOUGH_DATA, INVALID_DATABASE, OURS];
}

/// A letter as it is printed.
pub fn shown(class: u32) -> char {
    char::from_u32(class).filter(char::is_ascii_alphabetic).unwrap_or('-')
}

/// All that follows from a call's input: nothing that the library lets a caller see is left out.
#[derive(Clone, Debug, Default, PartialEq, Eq)]
pub struct Answer {
    pub number: u32,
    /// The letter of the number's class, 0 on success.
    pub class: u32,
    /// Bit count, byte count, expected, actual.
    pub report: [usize; 4],
    /// The output after a decode, the payload after an encode or a clear, the part that a read found, a written value.
    pub bytes: Vec<u8>,
    /// The used length after an encode.
    pub used: usize,
    /// Where a read's part starts; the three places of a fetch.
    pub places: [usize; 3],
    /// What stands where a value is read to.
    pub value: i64,
}

impl Answer {
    /// A refusal of the class that the original has not, which leaves what was lent as it came.
    pub fn refused(number: u32, call: &Call) -> Answer {
        let (bytes, used, value) = match call {
            Call::Decode { output, .. } => (output.clone(), 0, 0),
            Call::Encode { payload, used, .. } => (payload.clone(), *used, 0),
            Call::Clear { payload, .. } => (payload.clone(), 0, 0),
            Call::Read { .. } | Call::Fetch { .. } => (Vec::new(), 0, 0),
            Call::ReadValue { before, .. } => (Vec::new(), 0, *before),
            Call::WriteValue { bytes, .. } => (bytes.clone(), 0, 0),
        };
        Answer { number, class: class::OURS, bytes, used, value, ..Answer::default() }
    }

    /// The refusal 30.
    pub fn short(expected: usize, actual: usize, call: &Call) -> Answer {
        Answer { class: class::NOT_ENOUGH_DATA, report: [0, 0, expected, actual], ..Answer::refused(30, call) }
    }
}

/// Bytes as two hexadecimal digits each; long ones are cut.
struct Hex<'a>(&'a [u8]);

impl fmt::Display for Hex<'_> {
    fn fmt(&self, f: &mut fmt::Formatter) -> fmt::Result {
        write!(f, "[{}]", self.0.len())?;
        for byte in self.0.iter().take(80) {
            write!(f, " {byte:02X}")?;
        }
        f.write_str(if self.0.len() > 80 { " .." } else { "" })
    }
}

impl fmt::Display for Case {
    fn fmt(&self, f: &mut fmt::Formatter) -> fmt::Result {
        writeln!(f, "  {}", Call::NAMES[self.call.kind()])?;
        writeln!(f, "  record {}", Hex(&self.record))?;
        writeln!(f, "  store {}", Hex(&self.store))?;
        match &self.call {
            Call::Decode { payload, byte_pos, bit_pos, output } => {
                writeln!(f, "  payload {}", Hex(payload))?;
                writeln!(f, "  byte {byte_pos}, bit {bit_pos}")?;
                write!(f, "  output {}", Hex(output))
            }
            Call::Encode { input, payload, used, byte_pos, bit_pos } => {
                writeln!(f, "  input {}", Hex(input))?;
                writeln!(f, "  payload {}", Hex(payload))?;
                write!(f, "  used {used}, byte {byte_pos}, bit {bit_pos}")
            }
            Call::Clear { payload, used, byte_pos, bit_pos } => {
                writeln!(f, "  payload {}", Hex(payload))?;
                write!(f, "  used {used}, byte {byte_pos}, bit {bit_pos}")
            }
            Call::Read { payload, byte_pos, byte_count } => {
                writeln!(f, "  payload {}", Hex(payload))?;
                write!(f, "  byte {byte_pos}, byte count {byte_count}")
            }
            Call::Fetch { table, number } => {
                writeln!(f, "  table {}", Hex(table))?;
                write!(f, "  number {number}")
            }
            Call::ReadValue { encoding, width, bytes, before } => {
                writeln!(f, "  encoding {encoding}, {width} bits, value before {before}")?;
                write!(f, "  bytes {}", Hex(bytes))
            }
            Call::WriteValue { encoding, width, value, bytes } => {
                writeln!(f, "  encoding {encoding}, {width} bits, value {value}")?;
                write!(f, "  bytes before {}", Hex(bytes))
            }
        }
    }
}

impl fmt::Display for Answer {
    fn fmt(&self, f: &mut fmt::Formatter) -> fmt::Result {
        let [bits, bytes, expected, actual] = self.report;
        let class = shown(self.class);
        write!(f, "{} {class}, {bits} bits, {bytes} bytes, expected {expected}, actual {actual}, ", self.number)?;
        write!(f, "used {}, places {:?}, value {}, bytes {}", self.used, self.places, self.value, Hex(&self.bytes))
    }
}
