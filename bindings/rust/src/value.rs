//! Signed and decimal values: the number that the bytes of a field say, and the bytes that say a number.
use crate::{decode, encode, ffi, number, Field, Refusal};

/// How the bits of a value say a number, with the code of include/dct.h. The width w is 2 to 64 bits.
#[derive(Clone, Copy, Debug, PartialEq, Eq, Hash)]
#[non_exhaustive]
#[repr(u32)]
pub enum Encoding {
    /// From -2^(w-1) to 2^(w-1)-1.
    TwosComplement = 1,
    /// From -(2^(w-1)-1) to 2^(w-1)-1. All ones are read as 0 too.
    OnesComplement = 2,
    /// The highest bit is the sign, and the range is that of one's complement. The sign alone is read as 0 too.
    SignMagnitude = 3,
    /// A decimal digit in each 4 bits and no sign, from 0 to 10^(w/4)-1. The width is a multiple of 4.
    PackedDecimal = 4,
}

impl Encoding {
    const ALL: [Encoding; 4] =
        [Encoding::TwosComplement, Encoding::OnesComplement, Encoding::SignMagnitude, Encoding::PackedDecimal];
}

/// The encoding that a code tells. Any other code is refused with 58, as the library refuses it.
impl TryFrom<u32> for Encoding {
    type Error = Refusal;

    fn try_from(code: u32) -> Result<Encoding, Refusal> {
        let unknown = Refusal { number: number::WIDTH_NOT_ALLOWED, expected: 0, actual: 0 };
        Encoding::ALL.into_iter().find(|encoding| *encoding as u32 == code).ok_or(unknown)
    }
}

/// The most bytes that a value has.
const LONGEST: usize = 8;

/// Reads the number that bytes say, as [`decode`] gives them: as many as the width takes, the number right-aligned in them. Bits above
/// the width are ignored.
///
/// ```
/// assert_eq!(dct::value_read(dct::Encoding::SignMagnitude, 12, &[0x08, 0x02])?, -2);
/// # Ok::<(), dct::Refusal>(())
/// ```
pub fn value_read(encoding: Encoding, width: usize, bytes: &[u8]) -> Result<i64, Refusal> {
    ffi::value_read(encoding, width, bytes)
}

/// Writes a number to all of the bytes, as [`encode`] takes them: as many as the width takes, the number right-aligned in them. Bits
/// above the width become 0, and 0 is written as zero bits alone.
///
/// ```
/// let mut bytes = [0; 2];
/// dct::value_write(dct::Encoding::PackedDecimal, 16, 2026, &mut bytes)?;
/// assert_eq!(bytes, [0x20, 0x26]);
/// # Ok::<(), dct::Refusal>(())
/// ```
pub fn value_write(encoding: Encoding, width: usize, value: i64, bytes: &mut [u8]) -> Result<(), Refusal> {
    ffi::value_write(encoding, width, value, bytes)
}

/// Reads the field at a byte and a bit position of the payload as a number. Its width is the bit count that [`decode`] gives.
///
/// Ones of a condensed mask that meet no bit of the field are counted too, and then the number may be another: give such a field
/// whole bytes, and its mask no more of them.
///
/// What `decode` into 8 bytes refuses is refused first, and so a field of more bytes is refused with 41. A width that the encoding does
/// not allow is refused with 58.
///
/// ```
/// // Int32, high-low, 12 bits
/// let record = [1, 1, 3, 0, 0, 0, 0, 12, 0, 0, 0, 0, 0, 0, 0, 0];
/// let field = dct::Field { record: &record, store: &[] };
/// let torque = dct::decode_value(field, dct::Encoding::TwosComplement, &[0x62, 0x0F, 0xFE], 1, 0)?;
/// assert_eq!(torque, -2);
/// # Ok::<(), dct::Refusal>(())
/// ```
pub fn decode_value(
    field: Field<'_>,
    encoding: Encoding,
    payload: &[u8],
    byte_pos: usize,
    bit_pos: usize,
) -> Result<i64, Refusal> {
    let mut output = [0; LONGEST];
    let reading = decode(field, payload, byte_pos, bit_pos, &mut output)?;
    value_read(encoding, reading.bit_count, &output[..reading.byte_count])
}

/// Writes a number of so many bits as the field at a byte and a bit position of the payload, of which `used` bytes are used, and on
/// success sets `used` to the bytes then used. What [`value_write`] refuses is refused first, and then what [`encode`] does.
///
/// The width is for the caller to tell: a field under a condensed mask holds as many bits as the mask has ones, any other as many as
/// its length. Another width is not refused, and what is read back may then be another number. Without a condensed mask 9 or more bits
/// that are no whole bytes lose bits, and without any mask a write ORs, as [`encode`] tells.
///
/// ```
/// // Int32, low-high, 16 bits
/// let record = [1, 0, 3, 0, 0, 0, 0, 16, 0, 0, 0, 0, 0, 0, 0, 0];
/// let field = dct::Field { record: &record, store: &[] };
/// let (mut message, mut used) = ([0x62, 0, 0, 0], 1);
/// dct::encode_value(field, dct::Encoding::TwosComplement, 16, -2, &mut message, &mut used, 1, 0)?;
/// assert_eq!(message[..used], [0x62, 0xFE, 0xFF]);
/// # Ok::<(), dct::Refusal>(())
/// ```
#[allow(clippy::too_many_arguments)] // those of `encode`, and what says the number
pub fn encode_value(
    field: Field<'_>,
    encoding: Encoding,
    width: usize,
    value: i64,
    payload: &mut [u8],
    used: &mut usize,
    byte_pos: usize,
    bit_pos: usize,
) -> Result<(), Refusal> {
    let mut bytes = [0; LONGEST];
    // a width that takes more is refused with fewer too
    let input = &mut bytes[..width.div_ceil(8).min(LONGEST)];
    value_write(encoding, width, value, input)?;
    encode(field, input, payload, used, byte_pos, bit_pos)
}
