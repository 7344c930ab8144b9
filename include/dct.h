/* Ducatsatchel: reading and writing the coded fields of diagnostic messages.
 *
 * Every call gets an answer or a numbered refusal. A refusal leaves the payload, its used length and the output as they came, and
 * a value and its bytes too.
 *
 * A record is 16 bytes that describe a field (the project's docs/RECORDS.md tells what each says); a store holds the masks and
 * key names that records speak of. Both stand in a stored table, where dct_fetch finds them.
 *
 * How values stand in inputs and outputs: most significant byte first, also for a low-high field. A number is right-aligned in as
 * many bytes as its bits take, and a read Int32 is not sign-extended: the bits above its length are 0. dct_value_read makes a signed
 * or a decimal number of such bytes, and dct_value_write the bytes of one. A terminator and a length field are not part of the input;
 * the call writes them.
 *
 * What surprises, and the way around (the project's README shows each):
 *   - A write of 9 or more bits that are no whole bytes loses bits: 05 A7 written as 12 bits at bit 4 becomes 50 70. Write whole
 *     bytes under a condensed mask, whose ones say where the value's bits stand: 16 bits at bit 0 under FF F0. Give such a write as
 *     many input bytes as the ones take: a bit that is missing is written as 1.
 *   - Without a mask a write ORs into what stands there. Call dct_clear first, for a number; or give a StandardLength field a mask
 *     of ones, under which a write replaces; set the bytes of any other field to zero before.
 *   - A StandardLength field without a condensed mask takes as many bytes as it has: short input is padded with zeros, and surplus is
 *     dropped, in front for a number and at the end for a byte type. Lend as many bytes as the field has.
 *   - MinMaxLength does not look at its limits when it is written. Compare the input's length with them first.
 *   - A field that needs a byte more than its length takes, as 8 bits at bit 4, is written across a byte edge and not read: refusal
 *     27. Write and read whole bytes under a condensed mask, here 16 bits at bit 0 under 0F F0.
 *
 * What the caller owes, since nothing can test it:
 *   - each pointer holds what the length after it says; it may be null where that length is 0;
 *   - used, place, report and places point to what they name, and so does the value of dct_value_read;
 *   - nothing that a call writes (output, payload, used, place, report, places, the value of dct_value_read, the bytes of
 *     dct_value_write) overlaps anything else that it is given.
 *
 * The library keeps nothing between calls: any number of threads may call it at once, as long as nothing that one call writes is
 * lent to another at the same time.
 *
 * This header is for C99 and later, and for C++. Numbers are 64 bits wide: the library is for 64-bit x86-64 Linux.
 */
#ifndef DCT_H
#define DCT_H

#include <stddef.h>
#include <stdint.h>

#ifdef __cplusplus
extern "C" {
#endif

/* The version of the library that this header belongs to. Within a major version no number, no name and no parameter changes its
 * meaning; a minor version may add functions and numbers. */
#define DCT_VERSION "1.4.0"
#define DCT_VERSION_MAJOR 1
#define DCT_VERSION_MINOR 4
#define DCT_VERSION_PATCH 0

/* What a call answers: DCT_OK, or the number of its refusal. */
enum {
    DCT_OK = 0,                               /* the call did what it says */
    DCT_NUMERIC_WITH_VARIABLE_LENGTH = 10,    /* a numeric type whose length the payload would tell */
    DCT_ODD_UNICODE_LIMITS = 11,              /* Unicode2String with an odd minimum, an odd maximum or no maximum */
    DCT_ZERO_MAXIMUM = 12,                    /* the maximum is 0 */
    DCT_MAXIMUM_BELOW_MINIMUM = 13,           /* the maximum is below the minimum */
    DCT_BYTE_TYPE_AT_BIT_POSITION = 20,       /* a byte type at a bit position that is not 0 */
    DCT_ZERO_BIT_LENGTH = 21,                 /* the bit length is 0 */
    DCT_INTEGER_TOO_LONG = 22,                /* an integer of more than 64 bits */
    DCT_FLOAT32_LENGTH = 23,                  /* Float32 of another length than 32 bits */
    DCT_FLOAT64_LENGTH = 24,                  /* Float64 of another length than 64 bits */
    DCT_UNICODE_LENGTH = 25,                  /* Unicode2String of a length that is no multiple of 16 bits */
    DCT_BIT_POSITION_ABOVE_SEVEN = 26,        /* the bit position is above 7 */
    DCT_BITS_PAST_CUT = 27,                   /* decode: the field runs past the bytes that its length takes */
    DCT_NOT_ENOUGH_DATA = 30,                 /* the payload is too short: expected and actual say by how much */
    DCT_LENGTH_FIELD_PAST_PAYLOAD = 31,       /* the length field runs past the payload */
    DCT_LENGTH_FIELD_TOO_WIDE = 32,           /* the length field has more than 64 bits */
    DCT_COUNT_TOO_LARGE = 33,                 /* encode: the byte count needs more bits than the length field has */
    DCT_SCAN_PAST_PAYLOAD = 34,               /* decode: a scan for zero ends past the payload */
    DCT_EMPTY_UNTIL_END_OF_PDU = 35,          /* encode: an empty input where the payload's end would end it */
    DCT_MASK_LONGER_THAN_LENGTH = 36,         /* encode, clear: a condensed mask with more bits than the field */
    DCT_RUNTIME_LENGTH_NEEDED = 37,           /* decode: a parameter gives the length; use dct_read */
    DCT_EMPTY_LENGTH_FIELD = 38,              /* encode: an empty input behind a length field of 0 bits */
    DCT_NOT_CLEARABLE = 39,                   /* clear: not a numeric field of a length that the record tells */
    DCT_PAYLOAD_LACKS_ROOM = 40,              /* encode: the payload's slice ends before the field does */
    DCT_OUTPUT_LACKS_ROOM = 41,               /* decode: the output is smaller than what was read */
    DCT_MALFORMED_RECORD = 42,                /* the record is malformed or absent, or its mask or key name is outside the store */
    DCT_SLICE_TOO_LONG = 43,                  /* more than 65,535 bytes, or than 32,768 of the store */
    DCT_USED_PAST_SLICE = 44,                 /* the used length is above the payload's */
    DCT_MALFORMED_TABLE = 45,                 /* the table's mark, version, count, store length or total size is wrong */
    DCT_WIDTH_NOT_ALLOWED = 58,               /* an unknown encoding, a width not allowed, or another byte count than it takes */
    DCT_VALUE_OUT_OF_RANGE = 59,              /* value_write: the value is outside the range of its encoding and width */
    DCT_DIGIT_ABOVE_NINE = 60                 /* value_read: a decimal digit is above 9 */
};

/* The class of a number, a letter. The first three are the errors of the Rust that the library follows. */
enum {
    DCT_CLASS_BAD_PAYLOAD = 'B',      /* the description, a position, the payload or the input does not fit */
    DCT_CLASS_NOT_ENOUGH_DATA = 'N',  /* the payload is too short */
    DCT_CLASS_INVALID_DATABASE = 'D', /* the description asks for what its variant cannot do */
    DCT_CLASS_OURS = 'P'              /* no error of the Rust: room, slices, records, tables, clear, values */
};

/* How the bits of a value say a number, for dct_value_read and dct_value_write. w is the value's width, from 2 to 64 bits. */
enum {
    DCT_TWOS_COMPLEMENT = 1, /* from -2^(w-1) to 2^(w-1)-1 */
    DCT_ONES_COMPLEMENT = 2, /* from -(2^(w-1)-1) to 2^(w-1)-1; all ones are read as 0 too */
    DCT_SIGN_MAGNITUDE = 3,  /* the highest bit is the sign; the same range; the sign alone is read as 0 too */
    DCT_PACKED_DECIMAL = 4   /* a decimal digit in each 4 bits and no sign, from 0 to 10^(w/4)-1; w is a multiple of 4 */
};

/* What a call reports besides its number; it is written on every call. The counts are 0 unless something was read, expected
 * and actual are 0 unless the number is DCT_NOT_ENOUGH_DATA. */
struct dct_report {
    size_t bit_count;  /* bits that were read; under a condensed mask as many as it has ones, at most the length */
    size_t byte_count; /* bytes of the output that they take */
    size_t expected;   /* where the field would end, counted from the payload's start */
    size_t actual;     /* where the payload ends, or for dct_clear its used bytes */
};

/* Reads the field at a byte and a bit position of the payload into the front of the output. */
uint32_t dct_decode(const uint8_t *record, size_t record_length,
                    const uint8_t *store, size_t store_length,
                    const uint8_t *payload, size_t payload_length,
                    size_t byte_pos, size_t bit_pos,
                    uint8_t *output, size_t output_length,
                    struct dct_report *report);

/* Writes the input as the field at a byte and a bit position of the payload, of which *used bytes are used, and on success
 * sets *used to the bytes then used. */
uint32_t dct_encode(const uint8_t *record, size_t record_length,
                    const uint8_t *store, size_t store_length,
                    const uint8_t *input, size_t input_length,
                    uint8_t *payload, size_t payload_length,
                    size_t *used,
                    size_t byte_pos, size_t bit_pos,
                    struct dct_report *report);

/* Sets the bits that a numeric field of a given length owns to zero, and no others. */
uint32_t dct_clear(const uint8_t *record, size_t record_length,
                   const uint8_t *store, size_t store_length,
                   uint8_t *payload, size_t payload_length,
                   size_t used,
                   size_t byte_pos, size_t bit_pos,
                   struct dct_report *report);

/* Finds byte_count bytes at a byte position of the payload, for a field whose length was read before: they are the report's
 * byte count of bytes from payload[*place] on, unordered, and *place is 0 where there are none. */
uint32_t dct_read(const uint8_t *record, size_t record_length,
                  const uint8_t *store, size_t store_length,
                  const uint8_t *payload, size_t payload_length,
                  size_t byte_pos, size_t byte_count,
                  size_t *place,
                  struct dct_report *report);

/* Checks a table's header and its record with a number, from 0, and tells where that record starts in the table, where the
 * store starts, and how many bytes the store has; three zeros on refusal. */
uint32_t dct_fetch(const uint8_t *table, size_t table_length,
                   size_t number,
                   size_t places[3]);

/* Reads the number that bytes say in an encoding, one of those above, into *value. The bytes are as many as the width takes, the
 * number right-aligned in them, as a decode gives it; the width is then the report's bit count. Bits above the width are ignored.
 * That bit count has also the ones of a condensed mask that meet no bit of the field, and then the number may be another: give such
 * a field whole bytes, and its mask no more of them. */
uint32_t dct_value_read(uint32_t encoding, size_t width,
                        const uint8_t *bytes, size_t bytes_length,
                        int64_t *value);

/* Writes a number in an encoding to the bytes, as an encode takes it. They are as many as the width takes, and each is written: bits
 * above the width become 0. The number 0 is written as zero bits alone. */
uint32_t dct_value_write(uint32_t encoding, size_t width,
                         int64_t value,
                         uint8_t *bytes, size_t bytes_length);

/* Answers the class of a number that a call answered, one of DCT_CLASS_..., and 0 for DCT_OK and for what is no number of a
 * refusal. */
uint32_t dct_class(uint32_t number);

/* A number's name, such as "DCT_NOT_ENOUGH_DATA", and its sentence, for messages; "an unknown number" for what is none. They are
 * here and not in the archive, and are written from the lines above by the project's bindings/numbers. */
static inline const char *dct_name(uint32_t number)
{
    switch (number) {
    /* names */
    case DCT_OK: return "DCT_OK";
    case DCT_NUMERIC_WITH_VARIABLE_LENGTH: return "DCT_NUMERIC_WITH_VARIABLE_LENGTH";
    case DCT_ODD_UNICODE_LIMITS: return "DCT_ODD_UNICODE_LIMITS";
    case DCT_ZERO_MAXIMUM: return "DCT_ZERO_MAXIMUM";
    case DCT_MAXIMUM_BELOW_MINIMUM: return "DCT_MAXIMUM_BELOW_MINIMUM";
    case DCT_BYTE_TYPE_AT_BIT_POSITION: return "DCT_BYTE_TYPE_AT_BIT_POSITION";
    case DCT_ZERO_BIT_LENGTH: return "DCT_ZERO_BIT_LENGTH";
    case DCT_INTEGER_TOO_LONG: return "DCT_INTEGER_TOO_LONG";
    case DCT_FLOAT32_LENGTH: return "DCT_FLOAT32_LENGTH";
    case DCT_FLOAT64_LENGTH: return "DCT_FLOAT64_LENGTH";
    case DCT_UNICODE_LENGTH: return "DCT_UNICODE_LENGTH";
    case DCT_BIT_POSITION_ABOVE_SEVEN: return "DCT_BIT_POSITION_ABOVE_SEVEN";
    case DCT_BITS_PAST_CUT: return "DCT_BITS_PAST_CUT";
    case DCT_NOT_ENOUGH_DATA: return "DCT_NOT_ENOUGH_DATA";
    case DCT_LENGTH_FIELD_PAST_PAYLOAD: return "DCT_LENGTH_FIELD_PAST_PAYLOAD";
    case DCT_LENGTH_FIELD_TOO_WIDE: return "DCT_LENGTH_FIELD_TOO_WIDE";
    case DCT_COUNT_TOO_LARGE: return "DCT_COUNT_TOO_LARGE";
    case DCT_SCAN_PAST_PAYLOAD: return "DCT_SCAN_PAST_PAYLOAD";
    case DCT_EMPTY_UNTIL_END_OF_PDU: return "DCT_EMPTY_UNTIL_END_OF_PDU";
    case DCT_MASK_LONGER_THAN_LENGTH: return "DCT_MASK_LONGER_THAN_LENGTH";
    case DCT_RUNTIME_LENGTH_NEEDED: return "DCT_RUNTIME_LENGTH_NEEDED";
    case DCT_EMPTY_LENGTH_FIELD: return "DCT_EMPTY_LENGTH_FIELD";
    case DCT_NOT_CLEARABLE: return "DCT_NOT_CLEARABLE";
    case DCT_PAYLOAD_LACKS_ROOM: return "DCT_PAYLOAD_LACKS_ROOM";
    case DCT_OUTPUT_LACKS_ROOM: return "DCT_OUTPUT_LACKS_ROOM";
    case DCT_MALFORMED_RECORD: return "DCT_MALFORMED_RECORD";
    case DCT_SLICE_TOO_LONG: return "DCT_SLICE_TOO_LONG";
    case DCT_USED_PAST_SLICE: return "DCT_USED_PAST_SLICE";
    case DCT_MALFORMED_TABLE: return "DCT_MALFORMED_TABLE";
    case DCT_WIDTH_NOT_ALLOWED: return "DCT_WIDTH_NOT_ALLOWED";
    case DCT_VALUE_OUT_OF_RANGE: return "DCT_VALUE_OUT_OF_RANGE";
    case DCT_DIGIT_ABOVE_NINE: return "DCT_DIGIT_ABOVE_NINE";
    default: return "an unknown number";
    }
}

static inline const char *dct_sentence(uint32_t number)
{
    switch (number) {
    /* sentences */
    case DCT_OK: return "the call did what it says";
    case DCT_NUMERIC_WITH_VARIABLE_LENGTH: return "a numeric type whose length the payload would tell";
    case DCT_ODD_UNICODE_LIMITS: return "Unicode2String with an odd minimum, an odd maximum or no maximum";
    case DCT_ZERO_MAXIMUM: return "the maximum is 0";
    case DCT_MAXIMUM_BELOW_MINIMUM: return "the maximum is below the minimum";
    case DCT_BYTE_TYPE_AT_BIT_POSITION: return "a byte type at a bit position that is not 0";
    case DCT_ZERO_BIT_LENGTH: return "the bit length is 0";
    case DCT_INTEGER_TOO_LONG: return "an integer of more than 64 bits";
    case DCT_FLOAT32_LENGTH: return "Float32 of another length than 32 bits";
    case DCT_FLOAT64_LENGTH: return "Float64 of another length than 64 bits";
    case DCT_UNICODE_LENGTH: return "Unicode2String of a length that is no multiple of 16 bits";
    case DCT_BIT_POSITION_ABOVE_SEVEN: return "the bit position is above 7";
    case DCT_BITS_PAST_CUT: return "decode: the field runs past the bytes that its length takes";
    case DCT_NOT_ENOUGH_DATA: return "the payload is too short: expected and actual say by how much";
    case DCT_LENGTH_FIELD_PAST_PAYLOAD: return "the length field runs past the payload";
    case DCT_LENGTH_FIELD_TOO_WIDE: return "the length field has more than 64 bits";
    case DCT_COUNT_TOO_LARGE: return "encode: the byte count needs more bits than the length field has";
    case DCT_SCAN_PAST_PAYLOAD: return "decode: a scan for zero ends past the payload";
    case DCT_EMPTY_UNTIL_END_OF_PDU: return "encode: an empty input where the payload's end would end it";
    case DCT_MASK_LONGER_THAN_LENGTH: return "encode, clear: a condensed mask with more bits than the field";
    case DCT_RUNTIME_LENGTH_NEEDED: return "decode: a parameter gives the length; use dct_read";
    case DCT_EMPTY_LENGTH_FIELD: return "encode: an empty input behind a length field of 0 bits";
    case DCT_NOT_CLEARABLE: return "clear: not a numeric field of a length that the record tells";
    case DCT_PAYLOAD_LACKS_ROOM: return "encode: the payload's slice ends before the field does";
    case DCT_OUTPUT_LACKS_ROOM: return "decode: the output is smaller than what was read";
    case DCT_MALFORMED_RECORD: return "the record is malformed or absent, or its mask or key name is outside the store";
    case DCT_SLICE_TOO_LONG: return "more than 65,535 bytes, or than 32,768 of the store";
    case DCT_USED_PAST_SLICE: return "the used length is above the payload's";
    case DCT_MALFORMED_TABLE: return "the table's mark, version, count, store length or total size is wrong";
    case DCT_WIDTH_NOT_ALLOWED: return "an unknown encoding, a width not allowed, or another byte count than it takes";
    case DCT_VALUE_OUT_OF_RANGE: return "value_write: the value is outside the range of its encoding and width";
    case DCT_DIGIT_ABOVE_NINE: return "value_read: a decimal digit is above 9";
    default: return "an unknown number";
    }
}

#ifdef __cplusplus
}
#endif

#endif
