/* Shows what surprises in writing and reading fields, each with the way around: README.md tells why, and what this prints. Build it with
 *
 *     gcc examples/c/surprises.c $(pkg-config --cflags --libs dct) -o surprises
 */
#include <stdio.h>
#include <string.h>

#include "dct.h"

enum { INT32 = 1, UINT32 = 2, ASCII = 4, BYTES = 7, LOW_HIGH = 0, HIGH_LOW = 1, MASK = 2, CONDENSED = 4, MAXIMUM = 8 };

/* the masks that records below speak of */
static const uint8_t store[] = {0x3F, 0xFC, 0x0F, 0xF0, 0xFF};

/* A message of four bytes, and how many of them are used. */
static uint8_t message[4];
static size_t used;
static struct dct_report report;

static void start(uint8_t byte)
{
    memset(message, byte, sizeof message);
    used = 0;
}

/* A record of StandardLength, with the mask of so many bytes at a place of the store. */
static const uint8_t *field(uint8_t type, uint8_t flags, uint8_t bits, uint8_t place, uint8_t length)
{
    static uint8_t record[16];
    const uint8_t said[16] = {type, flags, 3, 0, 0, 0, 0, bits, 0, 0, 0, 0, 0, place, 0, length};
    memcpy(record, said, 16);
    return record;
}

static void show(const char *what, const uint8_t *bytes, size_t length)
{
    size_t i;
    printf("%s", what);
    for (i = 0; i < length; i++)
        printf(" %02X", bytes[i]);
}

static void refused(uint32_t number)
{
    printf(" refusal %u, %s", (unsigned)number, dct_sentence(number));
}

/* Writes an input at byte 0 and shows the message. */
static void write(const uint8_t *record, const char *input, size_t length, size_t bit_pos)
{
    uint32_t number = dct_encode(record, 16, store, sizeof store, (const uint8_t *)input, length, message, sizeof message, &used, 0,
                                 bit_pos, &report);
    show(", written", (const uint8_t *)input, length);
    if (number != DCT_OK)
        refused(number);
    else
        show(":", message, used);
}

static void read_back(const uint8_t *record, size_t bit_pos)
{
    uint8_t output[4];
    uint32_t number =
        dct_decode(record, 16, store, sizeof store, message, used, 0, bit_pos, output, sizeof output, &report);
    printf(", read back:");
    if (number != DCT_OK)
        refused(number);
    else
        show("", output, report.byte_count);
}

/* Writes an input as a field at byte 0 of an empty message, and reads it back. */
static void there_and_back(const char *what, const uint8_t *record, const char *input, size_t length, size_t bit_pos)
{
    start(0);
    printf("%s", what);
    write(record, input, length, bit_pos);
    read_back(record, bit_pos);
}

/* Reads the field at byte 0 once more, as a signed number. */
static void read_as_value(const uint8_t *record)
{
    uint8_t output[4];
    int64_t value = 0;
    uint32_t number = dct_decode(record, 16, store, sizeof store, message, used, 0, 0, output, sizeof output, &report);
    if (number == DCT_OK)
        number = dct_value_read(DCT_TWOS_COMPLEMENT, report.bit_count, output, report.byte_count, &value);
    printf("\n  instead: read as a value of %u bits in two's complement:", (unsigned)report.bit_count);
    if (number != DCT_OK)
        refused(number);
    else
        printf(" %d", (int)value);
}

static void a_write_ors(void)
{
    const uint8_t *record = field(UINT32, HIGH_LOW, 8, 0, 0);
    start(0xF0);
    used = 1;
    printf("\na write ORs: 8 bits on F0");
    write(record, "\x01", 1, 0);
    dct_clear(record, 16, store, sizeof store, message, sizeof message, used, 0, 0, &report);
    printf("\n  instead: cleared first");
    write(record, "\x01", 1, 0);
    start(0xF0);
    used = 1;
    printf("\n  or: under the mask FF, on F0");
    write(field(UINT32, HIGH_LOW | MASK, 8, 4, 1), "\x01", 1, 0);
}

static void input_is_padded_or_dropped(const char *what, uint8_t type)
{
    size_t length;
    printf("%s", what);
    for (length = 1; length < 4; length += 2) {
        start(0);
        write(field(type, HIGH_LOW, 16, 0, 0), "\x12\x34\x56", length, 0);
    }
}

int main(void)
{
    /* MinMaxLength of 0 to 1 byte, ended by 00 */
    static const uint8_t short_text[16] = {ASCII, HIGH_LOW | MAXIMUM, 2, 2, 0, 0, 0, 0, 0, 0, 0, 1};
    enum { PICKED = HIGH_LOW | MASK | CONDENSED };

    there_and_back("bits are lost: 12 bits at bit 2", field(UINT32, HIGH_LOW, 12, 0, 0), "\x06\xAF", 2, 2);
    there_and_back("\n  instead: 16 bits at bit 0 under the condensed mask 3F FC", field(UINT32, PICKED, 16, 0, 2), "\x06\xAF", 2, 0);
    a_write_ors();
    input_is_padded_or_dropped("\ninput is padded or dropped: UInt32 of 16 bits", UINT32);
    input_is_padded_or_dropped("\nthe same of a byte type: ByteField of 16 bits", BYTES);
    there_and_back("\nlimits are not looked at: AsciiString of at most 1 byte", short_text, "AB", 2, 0);
    there_and_back("\nnot read across a byte edge: 8 bits at bit 4", field(UINT32, HIGH_LOW, 8, 0, 0), "\xA5", 1, 4);
    there_and_back("\n  instead: 16 bits at bit 0 under the condensed mask 0F F0", field(UINT32, PICKED, 16, 2, 2), "\xA5", 1, 0);
    there_and_back("\nmost significant byte first: UInt32 of 16 bits, low-high", field(UINT32, LOW_HIGH, 16, 0, 0), "\x0B\xB8", 2, 0);
    there_and_back("\nnot sign-extended: Int32 of 4 bits, -1", field(INT32, HIGH_LOW, 4, 0, 0), "\xFF", 1, 0);
    read_as_value(field(INT32, HIGH_LOW, 4, 0, 0));
    printf("\n");
    return 0;
}
