//! Our library, called as C calls it: everything lent stands between marks, so that a byte written beside it shows.
use crate::case::{Answer, Call, Case};
use dct::raw::{dct_class, dct_clear, dct_decode, dct_encode, dct_fetch, dct_read, dct_value_read, dct_value_write};
use std::ptr;

const MARK: [u8; 16] = [0xC5; 16];
/// What stands where a call has to write a number.
const UNWRITTEN: usize = 0x5EED_5EED_5EED_5EED;

/// The four slices lent to one call, each between marks.
pub struct Lent {
    bytes: Vec<u8>,
    /// Where each slice starts, and its length.
    slices: [(usize, usize); 4],
}

impl Lent {
    fn new(slices: [&[u8]; 4]) -> Lent {
        let total: usize = slices.iter().map(|slice| slice.len() + MARK.len()).sum();
        let mut lent = Lent { bytes: Vec::with_capacity(total + MARK.len()), slices: [(0, 0); 4] };
        lent.bytes.extend(MARK);
        for (i, slice) in slices.iter().enumerate() {
            lent.slices[i] = (lent.bytes.len(), slice.len());
            lent.bytes.extend(*slice);
            lent.bytes.extend(MARK);
        }
        lent
    }

    fn pointer(&mut self, i: usize) -> (*mut u8, usize) {
        let (start, length) = self.slices[i];
        (self.bytes[start..].as_mut_ptr(), length)
    }

    fn slice(&self, i: usize) -> &[u8] {
        let (start, length) = self.slices[i];
        &self.bytes[start..start + length]
    }

    /// Changes the byte before a slice, or the first of the slice.
    pub fn spoil(&mut self, i: usize, before: bool) {
        let (start, length) = self.slices[i];
        if before || length > 0 {
            self.bytes[start - usize::from(before)] ^= 1;
        }
    }

    /// Whether the marks and all slices but the one that may be written are as they came.
    fn untouched(&self, before: [&[u8]; 4], written: Option<usize>) -> bool {
        self.bytes[..MARK.len()] == MARK
            && (0..4).all(|i| {
                let (start, length) = self.slices[i];
                let end = start + length;
                self.bytes[end..end + MARK.len()] == MARK && (Some(i) == written || self.slice(i) == before[i])
            })
    }
}

/// What a call is lent, and which of these it may write.
fn lending(case: &Case) -> ([&[u8]; 4], Option<usize>) {
    let Case { record, store, call } = case;
    match call {
        Call::Decode { payload, output, .. } => ([record, store, payload, output], Some(3)),
        Call::Encode { input, payload, .. } => ([record, store, input, payload], Some(3)),
        Call::Clear { payload, .. } => ([record, store, payload, &[]], Some(2)),
        Call::Read { payload, .. } => ([record, store, payload, &[]], None),
        Call::Fetch { table, .. } => ([table, &[], &[], &[]], None),
        Call::ReadValue { bytes, .. } => ([bytes, &[], &[], &[]], None),
        Call::WriteValue { bytes, .. } => ([bytes, &[], &[], &[]], Some(0)),
    }
}

/// Makes the call, and leaves the numbers that it gives in the answer.
fn made(call: &Call, lent: &mut Lent, answer: &mut Answer) {
    let [(r, m), (s, n), (p, k), (q, l)] = [0, 1, 2, 3].map(|i| lent.pointer(i));
    let Answer { report, used, places, value, .. } = answer;
    let report = ptr::from_mut(report).cast();
    answer.number = unsafe {
        match *call {
            Call::Decode { byte_pos, bit_pos, .. } => dct_decode(r, m, s, n, p, k, byte_pos, bit_pos, q, l, report),
            Call::Encode { byte_pos, bit_pos, .. } => dct_encode(r, m, s, n, p, k, q, l, used, byte_pos, bit_pos, report),
            Call::Clear { used, byte_pos, bit_pos, .. } => dct_clear(r, m, s, n, p, k, used, byte_pos, bit_pos, report),
            Call::Read { byte_pos, byte_count, .. } => dct_read(r, m, s, n, p, k, byte_pos, byte_count, &mut places[0], report),
            Call::Fetch { number, .. } => dct_fetch(r, m, number, places),
            Call::ReadValue { encoding, width, .. } => dct_value_read(encoding, width, r, m, value),
            Call::WriteValue { encoding, width, value, .. } => dct_value_write(encoding, width, value, r, m),
        }
    };
    answer.class = unsafe { dct_class(answer.number) };
}

/// The library's answer, or what it touched that it should not have.
pub fn call(case: &Case) -> Result<Answer, &'static str> {
    call_then(case, |_| {})
}

/// The same, with something done to what was lent before it is looked at.
pub fn call_then(case: &Case, spoil: fn(&mut Lent)) -> Result<Answer, &'static str> {
    let (before, written) = lending(case);
    let mut lent = Lent::new(before);
    let (report, used, places, value) = match case.call {
        Call::Encode { used, .. } => ([UNWRITTEN; 4], used, [0; 3], 0),
        Call::Read { .. } => ([UNWRITTEN; 4], 0, [UNWRITTEN, 0, 0], 0),
        Call::Fetch { .. } => ([0; 4], 0, [UNWRITTEN; 3], 0),
        Call::Decode { .. } | Call::Clear { .. } => ([UNWRITTEN; 4], 0, [0; 3], 0),
        Call::ReadValue { before, .. } => ([0; 4], 0, [0; 3], before),
        Call::WriteValue { .. } => ([0; 4], 0, [0; 3], 0),
    };
    let mut answer = Answer { report, used, places, value, ..Answer::default() };
    made(&case.call, &mut lent, &mut answer);
    spoil(&mut lent);
    if !lent.untouched(before, written) {
        return Err("it wrote beside what was lent to be written");
    }
    answer.bytes = match (&case.call, written) {
        (Call::Read { .. }, _) => {
            let (place, length) = (answer.places[0], answer.report[1]);
            let part = place.checked_add(length).and_then(|end| lent.slice(2).get(place..end));
            part.ok_or("the part is not in the payload")?.to_vec()
        }
        (_, Some(i)) => lent.slice(i).to_vec(),
        (_, None) => Vec::new(),
    };
    Ok(answer)
}
