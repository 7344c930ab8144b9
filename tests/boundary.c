/* Calls the library as C can: every value of each byte of a record, and records of bytes drawn at random; every length of each
 * slice from 0 to past its limit; positions up to the largest number; values of every width in every encoding, and of codes and widths
 * that are refused. Sees that each call ends in an answer or in a refusal that docs/RULES.md knows, that the limits are refused just
 * where they are passed, that a refusal changes nothing, that a value is what its bits say, that an empty slice may be a null pointer,
 * and that each number has its class, its name and its sentence.
 *
 * Each slice ends where a page ends that cannot be touched, so a byte read or written past it stops the program.
 */
#define _DEFAULT_SOURCE
#include <inttypes.h>
#include <stdio.h>
#include <stdlib.h>
#include <string.h>
#include <sys/mman.h>

#include "dct.h"

enum { ROOM = 17 * 4096, PAGE = 4096, SLICE = 65535, STORE = 32768, RECORD = 16, FILL = 0xA5, BESIDE = 64 };

static uint64_t calls, counted[256];

/* What all that calls gave since it was 0 comes to: numbers, reports, used lengths, places, values, and the first bytes of what they may
 * write. */
static uint64_t digest;

static void take(uint64_t number)
{
    digest = 31 * digest + number;
}

static void take_bytes(const uint8_t *bytes, size_t length)
{
    size_t i;
    for (i = 0; i < length && i < 32; i++)
        take(bytes[i]);
}

static void stop(const char *what, uint32_t answer)
{
    fprintf(stderr, "boundary: %s (answer %" PRIu32 ", after %" PRIu64 " calls)\n", what, answer, calls);
    exit(1);
}

static void hold(int true_, const char *what, uint32_t answer)
{
    if (!true_)
        stop(what, answer);
}

/* A region whose last byte is before a page that cannot be touched. */
static uint8_t *region(void)
{
    uint8_t *start = mmap(NULL, ROOM + PAGE, PROT_READ | PROT_WRITE, MAP_PRIVATE | MAP_ANONYMOUS, -1, 0);
    if (start == MAP_FAILED || mprotect(start + ROOM, PAGE, PROT_NONE) != 0)
        stop("no memory", 0);
    memset(start, FILL, ROOM);
    return start;
}

/* So many bytes at the end of a region. */
static uint8_t *last(uint8_t *start, size_t length)
{
    return start + ROOM - length;
}

/* The same as a call is lent it: by a null pointer where it is empty, if that is tried. */
static int by_null;

static uint8_t *lent(uint8_t *start, size_t length)
{
    return by_null && length == 0 ? NULL : last(start, length);
}

static uint8_t *records, *stores, *payloads, *inputs, *outputs, *tables, *values;

/* What is asked of a call. */
struct question {
    size_t record, store, payload, input, output; /* lengths */
    size_t used, byte_pos, bit_pos;
};

static const struct dct_report nothing = {9, 9, 9, 9}, none = {0, 0, 0, 0};

static int is_known(uint32_t answer)
{
    static const uint8_t known[] = {NUMBERS};
    return answer < 256 && memchr(known, (int)answer, sizeof known) != NULL;
}

/* What holds of every report. */
static void judge(uint32_t answer, const struct dct_report *report)
{
    calls++;
    take(answer), take(report->bit_count), take(report->byte_count), take(report->expected), take(report->actual);
    hold(is_known(answer), "a number that the table of refusals does not have", answer);
    counted[answer]++;
    if (answer != DCT_OK)
        hold(report->bit_count == 0 && report->byte_count == 0, "a refusal with counts", answer);
    if (answer != DCT_NOT_ENOUGH_DATA)
        hold(report->expected == 0 && report->actual == 0, "expected or actual without 30", answer);
    else
        hold(report->expected > report->actual, "30 where nothing is missing", answer);
}

/* 43, 44 and 42 by the lengths alone, and then something else. */
static void judge_prefix(uint32_t answer, const struct question *q, size_t first, size_t second, size_t used)
{
    if (q->record > SLICE || q->store > STORE || first > SLICE || second > SLICE)
        hold(answer == DCT_SLICE_TOO_LONG, "a slice above its limit is 43", answer);
    else if (used > second)
        hold(answer == DCT_USED_PAST_SLICE, "a used length above the slice is 44", answer);
    else if (q->record != RECORD)
        hold(answer == DCT_MALFORMED_RECORD, "a record of another size is 42", answer);
    else
        hold(answer != DCT_SLICE_TOO_LONG && answer != DCT_USED_PAST_SLICE, "43 or 44 within the limits", answer);
}

/* The bytes from a place to another, or to a region's end, are still what was filled in. */
static int is_filled_to(const uint8_t *from, const uint8_t *to)
{
    size_t n = (size_t)(to - from);
    return n == 0 || (from[0] == FILL && memcmp(from, from + 1, n - 1) == 0);
}

static int is_filled(const uint8_t *from, const uint8_t *start)
{
    return is_filled_to(from, start + ROOM);
}

static void decode(const struct question *q)
{
    struct dct_report report = nothing;
    uint8_t *output = last(outputs, q->output);
    uint32_t answer = dct_decode(lent(records, q->record), q->record, lent(stores, q->store), q->store,
                                 lent(payloads, q->payload), q->payload, q->byte_pos, q->bit_pos, lent(outputs, q->output), q->output,
                                 &report);
    judge(answer, &report);
    judge_prefix(answer, q, q->payload, q->output, 0);
    hold(report.byte_count <= q->output, "more bytes than the output has", answer);
    hold(is_filled(output + report.byte_count, outputs), "output changed past the result", answer);
    take_bytes(output, q->output);
    memset(output, FILL, report.byte_count);
}

static void read_part(const struct question *q)
{
    struct dct_report report = nothing;
    size_t place = 9;
    uint32_t answer = dct_read(lent(records, q->record), q->record, lent(stores, q->store), q->store,
                               lent(payloads, q->payload), q->payload, q->byte_pos, q->output, &place, &report);
    judge(answer, &report);
    judge_prefix(answer, q, q->payload, 0, 0);
    hold(place <= q->payload && report.byte_count <= q->payload - place, "a part outside the payload", answer);
    if (answer == DCT_OK)
        hold(report.byte_count == q->output && report.bit_count == 8 * report.byte_count, "another part than asked", answer);
    if (report.byte_count == 0)
        hold(place == 0, "a place without a part", answer);
    take(place);
}

static void encode(const struct question *q)
{
    struct dct_report report = nothing;
    size_t used = q->used;
    uint8_t *payload = last(payloads, q->payload);
    uint32_t answer = dct_encode(lent(records, q->record), q->record, lent(stores, q->store), q->store, lent(inputs, q->input),
                                 q->input, lent(payloads, q->payload), q->payload, &used, q->byte_pos, q->bit_pos, &report);
    judge(answer, &report);
    judge_prefix(answer, q, q->input, q->payload, q->used);
    hold(report.byte_count == 0, "an encode that counts", answer);
    if (answer != DCT_OK)
        hold(used == q->used && is_filled(payload, payloads), "a refused encode that changed something", answer);
    else
        hold(used >= q->used && used <= q->payload && is_filled(payload + used, payloads), "bytes past the used ones", answer);
    take(used), take_bytes(payload, q->payload);
    memset(payload, FILL, answer == DCT_OK ? used : 0);
}

static void clear(const struct question *q)
{
    struct dct_report report = nothing;
    uint8_t *payload = last(payloads, q->payload);
    uint32_t answer = dct_clear(lent(records, q->record), q->record, lent(stores, q->store), q->store, lent(payloads, q->payload), q->payload,
                                q->used, q->byte_pos, q->bit_pos, &report);
    judge(answer, &report);
    judge_prefix(answer, q, 0, q->payload, q->used);
    hold(report.byte_count == 0, "a clear that counts", answer);
    if (answer != DCT_OK)
        hold(is_filled(payload, payloads), "a refused clear that changed something", answer);
    else
        hold(is_filled(payload + q->used, payloads), "bytes past the used ones", answer);
    take_bytes(payload, q->payload);
    memset(payload, FILL, answer == DCT_OK ? q->used : 0);
}

static void all(const struct question *q)
{
    decode(q);
    read_part(q);
    encode(q);
    clear(q);
}

static uint32_t fetch(size_t length, size_t number)
{
    size_t places[3] = {9, 9, 9};
    uint32_t answer = dct_fetch(lent(tables, length), length, number, places);
    judge(answer, &none);
    if (length > SLICE)
        hold(answer == DCT_SLICE_TOO_LONG, "a table above the limit is 43", answer);
    if (answer != DCT_OK)
        hold(places[0] == 0 && places[1] == 0 && places[2] == 0, "a refused fetch with places", answer);
    else
        hold(places[0] == 9 + 16 * number && places[0] + 16 <= places[1] && places[1] + places[2] == length, "wrong places",
             answer);
    take(places[0]), take(places[1]), take(places[2]);
    return answer;
}

/* 43 and 58, which the sizes alone tell. */
static uint32_t refused_by_size(uint32_t encoding, size_t width, size_t length)
{
    int is_encoding = encoding >= DCT_TWOS_COMPLEMENT && encoding <= DCT_PACKED_DECIMAL;
    int is_width = width >= 2 && width <= 64 && (encoding != DCT_PACKED_DECIMAL || width % 4 == 0);
    if (length > SLICE)
        return DCT_SLICE_TOO_LONG;
    return is_encoding && is_width && length == (width + 7) / 8 ? DCT_OK : DCT_WIDTH_NOT_ALLOWED;
}

/* The highest number of a width that is allowed, and the lowest. */
static int64_t highest(uint32_t encoding, size_t width)
{
    int64_t number = encoding == DCT_PACKED_DECIMAL ? 0 : INT64_MAX >> (64 - width);
    size_t digit;
    for (digit = 0; encoding == DCT_PACKED_DECIMAL && digit < width / 4; digit++)
        number = 10 * number + 9;
    return number;
}

static int64_t lowest(uint32_t encoding, size_t width)
{
    if (encoding == DCT_PACKED_DECIMAL)
        return 0;
    return -highest(encoding, width) - (encoding == DCT_TWOS_COMPLEMENT);
}

/* What so many bits from a place on say by themselves. */
static uint64_t bits(const uint8_t *bytes, size_t length, size_t from, size_t count)
{
    uint64_t number = 0;
    size_t at;
    for (at = from + count; at > from; at--)
        number = 2 * number + (uint64_t)(bytes[length - 1 - (at - 1) / 8] >> (at - 1) % 8 & 1);
    return number;
}

/* What the bits of a value say: the highest bit counts as the lowest number does, or is a sign, or it is a row of digits. */
static uint32_t told(uint32_t encoding, size_t width, const uint8_t *bytes, size_t length, int64_t *value)
{
    int64_t number = (int64_t)bits(bytes, length, 0, width - 1);
    int high = bits(bytes, length, width - 1, 1) == 1;
    size_t digit;
    if (encoding == DCT_PACKED_DECIMAL)
        for (number = 0, digit = width / 4; digit > 0; digit--) {
            if (bits(bytes, length, 4 * digit - 4, 4) > 9)
                return DCT_DIGIT_ABOVE_NINE;
            number = 10 * number + (int64_t)bits(bytes, length, 4 * digit - 4, 4);
        }
    else if (encoding == DCT_SIGN_MAGNITUDE)
        number = high ? -number : number;
    else
        number += high ? lowest(encoding, width) : 0;
    *value = number;
    return DCT_OK;
}

static void value_read(uint32_t encoding, size_t width, size_t length)
{
    static const int64_t before = 0x5A5A5A5A5A5A5A5A;
    int64_t value[3] = {before, before, before}, wanted = before;
    uint32_t number = refused_by_size(encoding, width, length);
    uint32_t answer = dct_value_read(encoding, width, lent(values, length), length, &value[1]);
    judge(answer, &none);
    if (number == DCT_OK)
        number = told(encoding, width, last(values, length), length, &wanted);
    hold(answer == number, "a value read with another number", answer);
    hold(value[1] == wanted, "a value that its bytes do not say, or that a refusal changed", answer);
    hold(value[0] == before && value[2] == before, "something beside the value changed", answer);
    take((uint64_t)value[1]);
}

static void value_write(uint32_t encoding, size_t width, int64_t value, size_t length)
{
    uint8_t *bytes = last(outputs, length);
    int64_t again = 0;
    uint32_t number = refused_by_size(encoding, width, length);
    uint32_t answer = dct_value_write(encoding, width, value, lent(outputs, length), length);
    judge(answer, &none);
    if (number == DCT_OK && (value < lowest(encoding, width) || value > highest(encoding, width)))
        number = DCT_VALUE_OUT_OF_RANGE;
    hold(answer == number, "a value written with another number", answer);
    hold(is_filled_to(bytes - BESIDE, bytes), "bytes before the slice changed", answer);
    if (answer != DCT_OK) {
        hold(is_filled(bytes, outputs), "a refused write that changed bytes", answer);
        return;
    }
    hold(told(encoding, width, bytes, length, &again) == DCT_OK && again == value, "bytes that do not say the value", answer);
    hold(bits(bytes, length, width, 8 * length - width) == 0, "a bit above the width is not 0", answer);
    hold(value != 0 || bits(bytes, length, 0, width) == 0, "0 is written as its second zero", answer);
    take_bytes(bytes, length);
    memset(bytes, FILL, length);
}

static const uint8_t bases[][RECORD] = {
    {2, 1, 3, 0, 0, 0, 0, 8, 0, 0, 0, 0, 0, 0, 0, 0},  /* 8 bits */
    {2, 0, 3, 0, 0, 0, 0, 12, 0, 0, 0, 0, 0, 0, 0, 0}, /* 12 bits low-high */
    {1, 3, 3, 0, 0, 0, 0, 16, 0, 0, 0, 0, 0, 1, 0, 2}, /* 16 bits under a mask */
    {2, 7, 3, 0, 0, 0, 0, 24, 0, 0, 0, 0, 0, 0, 0, 3}, /* 24 bits under a condensed mask */
    {7, 1, 3, 0, 0, 0, 0, 64, 0, 0, 0, 0, 0, 0, 0, 0}, /* 8 bytes */
    {4, 1, 1, 0, 0, 0, 0, 8, 0, 0, 0, 0, 0, 0, 0, 0},  /* behind a length field */
    {4, 9, 2, 2, 0, 0, 0, 1, 0, 0, 0, 9, 0, 0, 0, 0},  /* up to a zero */
    {6, 8, 2, 3, 0, 0, 0, 2, 0, 0, 0, 8, 0, 0, 0, 0},  /* up to FF FF */
    {5, 1, 2, 1, 0, 0, 0, 0, 0, 0, 0, 0, 0, 0, 0, 0},  /* up to the end */
    {2, 0, 4, 0, 0, 0, 0, 0, 0, 0, 0, 0, 0, 0, 0, 4},  /* a parameter gives the length */
};

enum { BASES = sizeof bases / sizeof bases[0] };

static const struct question usual = {RECORD, 4, 12, 3, 12, 6, 1, 0};

static void record(const uint8_t *bytes)
{
    memcpy(last(records, RECORD), bytes, RECORD);
}

/* At a few positions each: in the payload, at a bit, at its last byte, and past it. */
static void every_byte_of_a_record(void)
{
    uint8_t bytes[RECORD];
    struct question q;
    int base, at, value;
    for (base = 0; base < BASES; base++)
        for (at = 0; at < RECORD; at++)
            for (value = 0; value < 256; value++) {
                memcpy(bytes, bases[base], RECORD);
                bytes[at] = (uint8_t)value;
                record(bytes);
                q = usual, all(&q);
                q = usual, q.bit_pos = 4, all(&q);
                q = usual, q.byte_pos = 11, q.input = 0, all(&q);
                q = usual, q.byte_pos = 13, q.bit_pos = 9, all(&q);
            }
}

static uint64_t state = 88172645463325252u;

static uint64_t drawn(void)
{
    state ^= state << 13;
    state ^= state >> 7;
    state ^= state << 17;
    return state;
}

/* Half of them of any bytes, half of small ones, which are more often legal. */
static void records_at_random(int count)
{
    static const size_t places[] = {0, 1, 2, 6, 7, 8, 11, 12, 13, 65535, 65536, 4294967295u, SIZE_MAX / 2, SIZE_MAX - 1, SIZE_MAX};
    uint8_t bytes[RECORD];
    struct question q = usual;
    int i, at;
    for (i = 0; i < count; i++) {
        for (at = 0; at < RECORD; at++)
            bytes[at] = (uint8_t)(i % 2 ? drawn() % 256 : (drawn() % 3 ? 0 : drawn() % 10));
        record(bytes);
        q.byte_pos = places[drawn() % 15];
        q.bit_pos = places[drawn() % 15];
        q.used = places[drawn() % 15];
        q.payload = drawn() % 14;
        q.input = drawn() % 14;
        q.output = drawn() % 14;
        q.store = drawn() % 6;
        all(&q);
    }
}

/* Each slice alone at every length with one record; then every kind of field with several slices at lengths near the limits,
 * and 61 apart between them, since a field that takes the whole payload costs its length. */
static void every_length(void)
{
    struct question q;
    size_t n;
    int base;
    record(bases[0]);
    for (n = 0; n <= SLICE + 2; n++) {
        q = usual, q.record = n, all(&q);
        q = usual, q.store = n, all(&q);
        q = usual, q.input = n, all(&q);
        q = usual, q.output = n, all(&q);
        q = usual, q.payload = n, q.used = n / 2, all(&q);
    }
    for (n = 0; n <= SLICE + 2; n += n < 64 || n > SLICE - 64 || (n > STORE - 64 && n < STORE + 64) ? 1 : 61)
        for (base = 0; base < BASES; base++) {
            record(bases[base]);
            q = usual, q.payload = n, q.used = n / 2, all(&q);
            q = usual, q.payload = n, q.used = n, q.byte_pos = n - 1, all(&q);
            q = usual, q.output = n, all(&q);
            q = usual, q.payload = n, q.used = 0, q.output = n, q.input = n, q.store = n, q.byte_pos = 0, all(&q);
        }
}

/* Codes and widths, most of them none: some have the lowest bits of one that is. */
static const uint32_t codes[] = {0, 1, 2, 3, 4, 5, 6, 257, 65540, 2147483649u, UINT32_MAX - 3, UINT32_MAX};
static const size_t far_widths[] = {68, 72, 128, 264, 65544, 4294967304u, SIZE_MAX / 2, SIZE_MAX - 55, SIZE_MAX - 7, SIZE_MAX};

enum { CODES = sizeof codes / sizeof codes[0], FAR = sizeof far_widths / sizeof far_widths[0], NEAR = 67 };

static size_t width_at(size_t place)
{
    return place < NEAR ? place : far_widths[place - NEAR];
}

/* Bytes with all bits but one clear or set, or all of them; bytes drawn; digits drawn. One of each where all are refused alike. */
static void values_read(uint32_t encoding, size_t width, size_t length)
{
    size_t count = length < 16 ? length : 16, at, i;
    uint8_t *bytes = last(values, count);
    unsigned kind;
    for (at = refused_by_size(encoding, width, length) == DCT_OK ? 0 : 8 * count; at <= 8 * count; at++)
        for (kind = 0; kind < 4; kind++) {
            for (i = 0; i < count; i++)
                bytes[i] = (uint8_t)(kind < 2 ? 255 * kind : kind == 2 ? drawn() % 256 : 16 * (drawn() % 10) + drawn() % 10);
            if (kind < 2 && at < 8 * count)
                bytes[count - 1 - at / 8] ^= (uint8_t)(1 << at % 8);
            value_read(encoding, width, length);
        }
}

/* A number, the one below it and the one above it, on both sides of 0. */
static void values_near(uint32_t encoding, size_t width, uint64_t number, size_t length)
{
    uint64_t near;
    for (near = number - 1; near != number + 2; near++) {
        value_write(encoding, width, (int64_t)near, length);
        value_write(encoding, width, (int64_t)(0 - near), length);
    }
}

/* Numbers near each power of two and of ten, so that both ends of each range and what is past them are among them; and numbers drawn.
 * One power where all are refused alike. */
static void values_written(uint32_t encoding, size_t width, size_t length)
{
    int is_taken = refused_by_size(encoding, width, length) == DCT_OK, bit, digit;
    uint64_t ten = 1;
    for (bit = is_taken ? 0 : 63; bit < 64; bit++) {
        values_near(encoding, width, (uint64_t)1 << bit, length);
        value_write(encoding, width, (int64_t)drawn() >> bit, length);
    }
    for (digit = 0; is_taken && digit <= 16; digit++, ten *= 10)
        values_near(encoding, width, ten, length);
}

/* Each code with each width, in slices of every length that a width takes and one more, and at the limit. */
static void every_value(void)
{
    static const size_t lengths[] = {0, 1, 2, 3, 4, 5, 6, 7, 8, 9, SLICE, SLICE + 1, SLICE + 2};
    size_t code, place, n;
    for (code = 0; code < CODES; code++)
        for (place = 0; place < NEAR + FAR; place++)
            for (n = 0; n < sizeof lengths / sizeof lengths[0]; n++) {
                values_read(codes[code], width_at(place), lengths[n]);
                values_written(codes[code], width_at(place), lengths[n]);
            }
}

/* Every kind of field, with each of its slices empty or not, at a few positions; and values of every width without a byte. A null
 * pointer for each empty slice changes nothing that a call gives or writes. */
static void empty_by_null(void)
{
    static const size_t positions[][2] = {{0, 0}, {1, 4}, {11, 0}, {13, 9}};
    uint64_t digests[2];
    struct question q;
    size_t code, place;
    int base, empty, at;
    for (by_null = 0; by_null < 2; by_null++) {
        digest = 0;
        for (base = 0; base < BASES; base++)
            for (empty = 0; empty < 32; empty++)
                for (at = 0; at < 4; at++) {
                    record(bases[base]);
                    q = usual, q.byte_pos = positions[at][0], q.bit_pos = positions[at][1];
                    q.record = empty & 1 ? 0 : q.record, q.store = empty & 2 ? 0 : q.store, q.input = empty & 4 ? 0 : q.input;
                    q.output = empty & 8 ? 0 : q.output, q.payload = empty & 16 ? 0 : q.payload, q.used = empty & 16 ? 0 : q.used;
                    all(&q);
                }
        fetch(0, 0);
        for (code = 0; code < CODES; code++)
            for (place = 0; place < NEAR + FAR; place++)
                value_read(codes[code], width_at(place), 0), value_write(codes[code], width_at(place), 1, 0);
        digests[by_null] = digest;
    }
    by_null = 0;
    hold(digests[0] == digests[1], "an empty slice by a null pointer changes what a call gives", 0);
}

/* Every byte of a table, and every length; the numbers of records that it has and that it lacks. */
static void tables_too(void)
{
    static const uint8_t head[] = {'D', 'C', 'T', 0, 1, 0, 2, 0, 4};
    enum { SIZE = 9 + 2 * RECORD + 4 };
    uint8_t *table = last(tables, SIZE);
    size_t n, number;
    int at, value, base;
    for (base = 0; base < BASES; base++)
        for (at = 0; at < SIZE; at++)
            for (value = 0; value < 256; value++) {
                memset(table, 0, SIZE);
                memcpy(table, head, sizeof head);
                memcpy(table + 9, bases[base], RECORD);
                if (fetch(SIZE, 0) != DCT_OK || fetch(SIZE, 1) != DCT_MALFORMED_RECORD)
                    stop("a fetch that looks at another record", 0);
                table[at] = (uint8_t)value;
                for (number = 0; number < 4; number++)
                    fetch(SIZE, number);
                fetch(SIZE, SIZE_MAX);
            }
    for (n = 0; n <= SLICE + 2; n++) {
        table = last(tables, n);
        memset(table, 0, n);
        memcpy(table, head, n < sizeof head ? n : sizeof head);
        hold(n > SLICE || (fetch(n, 0) == DCT_MALFORMED_TABLE) == (n != SIZE), "45 by the total size", 0);
        fetch(n, n);
    }
}

/* The column of classes of RULES 10. */
static uint32_t class_of(uint32_t number)
{
    if (number == 10 || number == 37)
        return DCT_CLASS_INVALID_DATABASE;
    if (number == 30)
        return DCT_CLASS_NOT_ENOUGH_DATA;
    if ((number >= 39 && number <= 45) || (number >= 58 && number <= 60))
        return DCT_CLASS_OURS;
    return number != DCT_OK && is_known(number) ? DCT_CLASS_BAD_PAYLOAD : 0;
}

static void classify(uint32_t number)
{
    calls++;
    hold(dct_class(number) == class_of(number), "another class than RULES 10 gives it", number);
    hold((strncmp(dct_name(number), "DCT_", 4) == 0) == is_known(number), "a number with another name", number);
    hold((strcmp(dct_sentence(number), "an unknown number") != 0) == is_known(number), "a number with another sentence", number);
}

/* The numbers 70 below and 70 above each power of two, 0 and 2^32 too, which wraps; and numbers drawn at random. */
static void every_class(int count)
{
    uint32_t bit, near;
    int i;
    for (bit = 0; bit <= 32; bit++)
        for (near = 0; near <= 140; near++)
            classify((bit < 32 ? (uint32_t)1 << bit : 0) - 70 + near);
    for (i = 0; i < count; i++)
        classify((uint32_t)(drawn() >> (drawn() % 64)));
}

int main(void)
{
    uint32_t number;
    records = region(), stores = region(), payloads = region(), inputs = region(), outputs = region(), tables = region();
    values = region();
    every_byte_of_a_record();
    records_at_random(1000000);
    every_length();
    empty_by_null();
    tables_too();
    every_value();
    every_class(1000000);
    for (number = 0; number < 256; number++)
        if (is_known(number))
            hold(counted[number] > 0, "a number that no call gave", number);
    printf("boundary: %" PRIu64 " calls, every one answered, each number of the table among them\n", calls);
    return 0;
}
