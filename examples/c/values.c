/* Shows what each pattern of four bits reads as in each encoding, what two numbers are written as, and a field that is read and written as
 * a number: docs/VALUES.md tells more, and what this prints. Build it with
 *
 *     gcc examples/c/values.c $(pkg-config --cflags --libs dct) -o values
 */
#include <stdio.h>

#include "dct.h"

enum { WIDTH = 4, WIDE = 12, FIELD = 16 };

static const uint32_t encodings[] = {DCT_TWOS_COMPLEMENT, DCT_ONES_COMPLEMENT, DCT_SIGN_MAGNITUDE, DCT_PACKED_DECIMAL};

/* A cell of the table: a number, marked where it is zero and its bits are not, or a refusal. */
static void read_as(uint32_t encoding, int64_t bits)
{
    char cell[24];
    int64_t value;
    const uint8_t pattern = (uint8_t)bits;
    uint32_t number = dct_value_read(encoding, WIDTH, &pattern, 1, &value);
    if (number != DCT_OK)
        snprintf(cell, sizeof cell, "refusal %u", (unsigned)number);
    else
        snprintf(cell, sizeof cell, "%s%d", value == 0 && pattern != 0 ? "second zero: " : "", (int)value);
    printf("%20s", cell);
}

static void written_as(uint32_t encoding, int64_t value)
{
    char cell[24];
    uint8_t bytes[2];
    uint32_t number = dct_value_write(encoding, WIDE, value, bytes, sizeof bytes);
    if (number != DCT_OK)
        snprintf(cell, sizeof cell, "refusal %u", (unsigned)number);
    else
        snprintf(cell, sizeof cell, "%02X %02X", bytes[0], bytes[1]);
    printf("%20s", cell);
}

/* A row: its name, and a cell for each encoding. */
static void line(const char *name, void (*cell)(uint32_t, int64_t), int64_t of)
{
    size_t i;
    printf("%-6s", name);
    for (i = 0; i < sizeof encodings / sizeof *encodings; i++)
        cell(encodings[i], of);
    printf("\n");
}

/* A signed field at byte 1 of a message: Int32, low-high, StandardLength, 16 bits. */
static const uint8_t record[16] = {1, 0, 3, 0, 0, 0, 0, FIELD};

/* A decode gives the bytes and their bit count, and these the number. */
static uint32_t read_field(const uint8_t *message, size_t length, int64_t *value)
{
    uint8_t bytes[8];
    struct dct_report report;
    uint32_t number = dct_decode(record, 16, NULL, 0, message, length, 1, 0, bytes, sizeof bytes, &report);
    if (number != DCT_OK)
        return number;
    return dct_value_read(DCT_TWOS_COMPLEMENT, report.bit_count, bytes, report.byte_count, value);
}

/* The number gives the bytes, and an encode takes them. */
static uint32_t write_field(int64_t value, uint8_t *message, size_t length, size_t *used)
{
    uint8_t bytes[FIELD / 8];
    struct dct_report report;
    uint32_t number = dct_value_write(DCT_TWOS_COMPLEMENT, FIELD, value, bytes, sizeof bytes);
    if (number != DCT_OK)
        return number;
    return dct_encode(record, 16, NULL, 0, bytes, sizeof bytes, message, length, used, 1, 0, &report);
}

static uint32_t there_and_back(void)
{
    const uint8_t answer[] = {0x62, 0xD8, 0xFF};
    uint8_t message[3] = {0x62};
    size_t used = 1;
    int64_t value = 0;
    uint32_t number = read_field(answer, sizeof answer, &value);
    if (number != DCT_OK)
        return number;
    printf("16 bits, low-high, at byte 1 of 62 D8 FF: %d\n", (int)value);
    number = write_field(-2, message, sizeof message, &used);
    if (number == DCT_OK)
        printf("-2 written there, on 62: %02X %02X %02X\n", message[0], message[1], message[2]);
    return number;
}

int main(void)
{
    char bits[WIDTH + 1] = "";
    int pattern, i;
    printf("%-6s%20s%20s%20s%20s\n", "bits", "two's complement", "one's complement", "sign and magnitude", "packed decimal");
    for (pattern = 0; pattern < 1 << WIDTH; pattern++) {
        for (i = 0; i < WIDTH; i++)
            bits[i] = (char)('0' + (pattern >> (WIDTH - 1 - i) & 1));
        line(bits, read_as, pattern);
    }
    printf("written in 12 bits:\n");
    line("-5", written_as, -5);
    line("905", written_as, 905);
    return (int)there_and_back();
}
