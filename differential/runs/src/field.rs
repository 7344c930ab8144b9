//! A field's description as RULES 9 has it, and the 16 bytes that a record says it in. The reading of a record here is
//! written from the document and not from the library, which it is compared with.

/// The eight types in the order of their codes, 1 to 8.
pub const INT32: u8 = 1;
pub const UINT32: u8 = 2;
pub const FLOAT32: u8 = 3;
pub const ASCII: u8 = 4;
pub const UTF8: u8 = 5;
pub const UNICODE2: u8 = 6;
pub const BYTE_FIELD: u8 = 7;
pub const FLOAT64: u8 = 8;

pub const END_OF_PDU: u8 = 1;
pub const ZERO: u8 = 2;
pub const HEX_FF: u8 = 3;

#[derive(Clone, Debug, PartialEq, Eq)]
pub struct Field {
    pub data_type: u8,
    pub high_low: bool,
    pub variant: Variant,
}

#[derive(Clone, Debug, PartialEq, Eq)]
pub enum Variant {
    Leading(u32),
    MinMax { min: u32, max: Option<u32>, termination: u8 },
    Standard { bits: u32, mask: Option<Vec<u8>>, condensed: bool },
    Param(Vec<u8>),
}

pub fn is_numeric(data_type: u8) -> bool {
    matches!(data_type, INT32 | UINT32 | FLOAT32 | FLOAT64)
}

impl Field {
    /// The field's mask or key name, which goes into the store.
    pub fn part(&self) -> &[u8] {
        match &self.variant {
            Variant::Standard { mask: Some(mask), .. } => mask,
            Variant::Param(name) => name,
            _ => &[],
        }
    }

    /// The record of the field whose part stands at a place of the store.
    pub fn record(&self, place: u16) -> Vec<u8> {
        let mut flags = u8::from(self.high_low);
        let (code, termination, number, max, place) = match &self.variant {
            Variant::Leading(bits) => (1, 0, *bits, 0, 0),
            Variant::MinMax { min, max, termination } => {
                flags += if max.is_some() { 8 } else { 0 };
                (2, *termination, *min, max.unwrap_or(0), 0)
            }
            Variant::Standard { bits, mask, condensed } => {
                flags += if mask.is_some() { 2 } else { 0 } + if *condensed { 4 } else { 0 };
                (3, 0, *bits, 0, if mask.is_some() { place } else { 0 })
            }
            Variant::Param(_) => (4, 0, 0, 0, place),
        };
        let mut record = vec![self.data_type, flags, code, termination];
        record.extend(number.to_be_bytes());
        record.extend(max.to_be_bytes());
        record.extend(place.to_be_bytes());
        record.extend((self.part().len() as u16).to_be_bytes());
        record
    }

    /// What a record and a store say, or the refusal 42.
    pub fn parse(record: &[u8], store: &[u8]) -> Result<Field, u32> {
        let ok = |legal: bool| if legal { Ok(()) } else { Err(42u32) };
        ok(record.len() == 16)?;
        let [data_type, flags, code, termination] = [record[0], record[1], record[2], record[3]];
        let number = u32::from_be_bytes([record[4], record[5], record[6], record[7]]);
        let max = u32::from_be_bytes([record[8], record[9], record[10], record[11]]);
        let place = usize::from(u16::from_be_bytes([record[12], record[13]]));
        let length = usize::from(u16::from_be_bytes([record[14], record[15]]));
        let part = || store.get(place..place + length).map(<[u8]>::to_vec).ok_or(42u32);
        ok((1..=8).contains(&data_type) && flags < 16)?;
        let high_low = flags & 1 != 0;
        let [masked, condensed, limited] = [flags & 2 != 0, flags & 4 != 0, flags & 8 != 0];
        let variant = match code {
            1 => {
                ok(!masked && !condensed && !limited && termination == 0 && max == 0 && place == 0 && length == 0)?;
                Variant::Leading(number)
            }
            2 => {
                ok(!masked && !condensed && (1..=3).contains(&termination) && place == 0 && length == 0)?;
                ok(limited || max == 0)?;
                Variant::MinMax { min: number, max: limited.then_some(max), termination }
            }
            3 => {
                ok(!limited && termination == 0 && max == 0)?;
                ok(masked || (place == 0 && length == 0))?;
                Variant::Standard { bits: number, mask: if masked { Some(part()?) } else { None }, condensed }
            }
            4 => {
                ok(!masked && !condensed && !limited && termination == 0 && number == 0 && max == 0)?;
                Variant::Param(part()?)
            }
            _ => return Err(42),
        };
        Ok(Field { data_type, high_low, variant })
    }
}
