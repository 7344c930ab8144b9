/* Reads a stored table, and by its records decodes, encodes and clears fields of a payload. Prints what it did, and at the end
 * what a call is told that asks too much. Build it with
 *
 *     gcc examples/c/fields.c $(pkg-config --cflags --libs dct) -o fields
 */
#include <inttypes.h>
#include <stdio.h>

#include "dct.h"

/* Big-endian: mark, version, count and store length; the records; the store. */
static const uint8_t table[] = {
    'D', 'C', 'T', 0, 1, 0, 3, 0, 1,
    /* 0, engine speed: UInt32, high-low, 16 bits */
    2, 1, 3, 0, 0, 0, 0, 16, 0, 0, 0, 0, 0, 0, 0, 0,
    /* 1, gear: UInt32, high-low, 8 bits under the mask at 0 of the store, which is one byte long */
    2, 3, 3, 0, 0, 0, 0, 8, 0, 0, 0, 0, 0, 0, 0, 1,
    /* 2, part number: AsciiString, high-low, behind a length field of 8 bits */
    4, 1, 1, 0, 0, 0, 0, 8, 0, 0, 0, 0, 0, 0, 0, 0,
    /* the store */
    0x0F};

/* A record of the table, and the store that it speaks of. */
struct field {
    const uint8_t *record;
    const uint8_t *store;
    size_t store_length;
};

static uint32_t find(size_t number, struct field *field)
{
    size_t places[3];
    uint32_t answer = dct_fetch(table, sizeof table, number, places);
    if (answer == DCT_OK) {
        field->record = table + places[0];
        field->store = table + places[1];
        field->store_length = places[2];
    }
    return answer;
}

static void show(const char *what, const uint8_t *bytes, size_t length)
{
    size_t i;
    printf("%s:", what);
    for (i = 0; i < length; i++)
        printf(" %02X", bytes[i]);
    printf("\n");
}

/* Shows the bytes that were read, or the number of the refusal. */
static void decode(const char *name, const struct field *field, const uint8_t *payload, size_t length, size_t byte_pos)
{
    uint8_t output[16];
    struct dct_report report;
    uint32_t answer = dct_decode(field->record, 16, field->store, field->store_length, payload, length, byte_pos, 0, output,
                                 sizeof output, &report);
    if (answer != DCT_OK) {
        printf("%s: refusal %" PRIu32 ", %s", name, answer, dct_sentence(answer));
        if (answer == DCT_NOT_ENOUGH_DATA)
            printf(" (expected %zu, actual %zu)", report.expected, report.actual);
        printf("\n");
        return;
    }
    printf("%s, %zu bits", name, report.bit_count);
    show("", output, report.byte_count);
}

int main(void)
{
    static const uint8_t speed[] = {0x0B, 0xB8}, gear[] = {0x03}, part[] = {'A', '4', '2'};
    uint8_t payload[8] = {0};
    size_t used = 0;
    struct field field[3], none;
    struct dct_report report;
    size_t i;
    uint32_t answer;

    for (i = 0; i < 3; i++)
        if (find(i, &field[i]) != DCT_OK)
            return 1;

    if (dct_encode(field[0].record, 16, field[0].store, field[0].store_length, speed, sizeof speed, payload, sizeof payload,
                   &used, 0, 0, &report) != DCT_OK)
        return 1;
    if (dct_encode(field[1].record, 16, field[1].store, field[1].store_length, gear, sizeof gear, payload, sizeof payload,
                   &used, 2, 0, &report) != DCT_OK)
        return 1;
    if (dct_encode(field[2].record, 16, field[2].store, field[2].store_length, part, sizeof part, payload, sizeof payload,
                   &used, 3, 0, &report) != DCT_OK)
        return 1;
    show("encoded", payload, used);

    decode("engine speed", &field[0], payload, used, 0);
    decode("gear", &field[1], payload, used, 2);
    decode("part number", &field[2], payload, used, 3);

    if (dct_clear(field[0].record, 16, field[0].store, field[0].store_length, payload, sizeof payload, used, 0, 0, &report) !=
        DCT_OK)
        return 1;
    show("engine speed cleared", payload, used);

    decode("engine speed past the end", &field[0], payload, used, 6);
    answer = find(3, &none);
    printf("record 3: refusal %" PRIu32 ", %s\n", answer, dct_sentence(answer));
    return 0;
}
