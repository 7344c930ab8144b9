/* Calls the library by a field: its record, the store and the input are lent from the ends of regions, before a page that
 * cannot be touched. Where a fault is set, what the library is asked or answers is changed by it.
 */
#define _DEFAULT_SOURCE
#include <stdio.h>
#include <stdlib.h>
#include <string.h>
#include <sys/mman.h>

#include "changing.h"

enum { ROOM = 17 * 4096, PAGE = 4096, MARKS = 16, MARK = 0x5A, RECORD = 16, STANDARD = 3, REFUSED_EVERY = 1000 };

int fault;
uint64_t calls;

static uint8_t *records, *stores, *inputs, old[SLICE];
static int decoded; /* the call before was a decode */

uint8_t *region(void)
{
    uint8_t *start = mmap(NULL, ROOM + PAGE, PROT_READ | PROT_WRITE, MAP_PRIVATE | MAP_ANONYMOUS, -1, 0);
    if (start == MAP_FAILED || mprotect(start + ROOM, PAGE, PROT_NONE) != 0) {
        fprintf(stderr, "changing: no memory\n");
        exit(1);
    }
    return start;
}

static uint8_t *last(uint8_t *start, size_t length)
{
    return start + ROOM - length;
}

uint8_t *lend(uint8_t *start, size_t length)
{
    memset(last(start, length + MARKS), MARK, MARKS);
    return last(start, length);
}

int is_marked(const uint8_t *lent)
{
    const uint8_t *marks = lent - MARKS;
    return marks[0] == MARK && memcmp(marks, marks + 1, MARKS - 1) == 0;
}

void prepare_calls(void)
{
    records = region(), stores = region(), inputs = region();
}

/* All numbers of these records are below 256. */
static const uint8_t *record(const struct field *f)
{
    uint8_t *bytes = last(records, RECORD);
    memset(bytes, 0, RECORD);
    bytes[0] = f->type;
    bytes[1] = (uint8_t)(f->high_low | f->masked << 1 | f->condensed << 2);
    bytes[2] = STANDARD;
    bytes[7] = (uint8_t)f->length;
    bytes[13] = (uint8_t)f->mask_place;
    bytes[15] = (uint8_t)f->mask_length;
    return bytes;
}

static const uint8_t *store(const struct list *l)
{
    return memcpy(last(stores, l->store_length), l->store, l->store_length);
}

static const uint8_t *input(const struct value *v)
{
    return memcpy(last(inputs, v->length), v->bytes, v->length);
}

/* A bit that is not the field's, or no field's, in the byte of its lowest bit, or 0 where there is none. */
static uint8_t bit_beside(const struct list *l, const struct field *f, size_t *at)
{
    int others;
    *at = f->byte_pos + (f->high_low ? f->cut - 1 : 0);
    others = ~(fault == SETS_UNOWNED ? l->taken[*at] : own_at(f, *at)) & 0xFF;
    return (uint8_t)(others & -others);
}

/* The field's bits, all of them and under no mask. */
static struct field without_mask(const struct field *f)
{
    struct field all = *f;
    all.type = UINT32;
    all.length = f->bits;
    all.masked = all.condensed = 0;
    all.mask_place = all.mask_length = 0;
    return all;
}

static void leave_turned(const struct field *f, uint8_t *payload)
{
    size_t i, at;
    for (i = 0; i < f->cut && !f->high_low; i++) {
        at = f->byte_pos + i;
        payload[at] = (uint8_t)((payload[at] & f->own[i]) | (old[f->byte_pos + f->cut - 1 - i] & ~f->own[i]));
    }
}

/* What a write leaves if nothing of the value lands: under a mask the field's bits are cleared all the same. */
static void leave_unwritten(const struct list *l, const struct field *f, uint8_t *payload)
{
    size_t i;
    for (i = 0; i < l->used; i++)
        payload[i] = (uint8_t)(f->mask_length > 0 ? old[i] & ~own_at(f, i) : old[i]);
}

static void turn(uint8_t *bytes, size_t length)
{
    uint8_t byte;
    size_t i;
    for (i = 0; i < length / 2; i++) {
        byte = bytes[i];
        bytes[i] = bytes[length - 1 - i];
        bytes[length - 1 - i] = byte;
    }
}

/* Whether this call is to be refused, and so has to leave what was there. */
static int refuse(const struct list *l, uint8_t *payload)
{
    if (calls % REFUSED_EVERY != 0)
        return 0;
    memcpy(payload, old, l->used);
    return 1;
}

/* Before an encode or a clear. */
static void prepare_fault(const struct list *l, uint8_t *payload)
{
    memcpy(old, payload, l->used);
    if (fault == COUNTS_FROM_END)
        turn(payload, l->used);
}

static void spoil_payload(const struct list *l, const struct field *f, uint8_t *payload)
{
    size_t i, at;
    uint8_t bit = bit_beside(l, f, &at);
    for (i = 0; fault == KEEPS_UNDER_MASK && i < l->used; i++)
        payload[i] |= old[i];
    if (fault == WRITES_NOTHING)
        leave_unwritten(l, f, payload);
    if (fault == SETS_MORE || fault == SETS_UNOWNED || (fault == SETS_AFTER_DECODE && decoded))
        payload[at] |= bit;
    if (fault == LEAVES_TURNED)
        leave_turned(f, payload);
    if (fault == COUNTS_FROM_END)
        turn(payload, l->used);
    if (fault == WRITES_BEFORE)
        payload[-1] = 0;
    if (fault == WRITES_BEHIND && l->room > l->used)
        payload[l->used] ^= 1;
    if (fault == ZEROES_BEHIND)
        memset(payload + l->used, 0, l->room - l->used);
}

static uint32_t spoil_encode(const struct list *l, const struct field *f, uint8_t *payload, size_t *used, uint32_t answer)
{
    spoil_payload(l, f, payload);
    *used += fault == GROWS;
    *used = fault == GROWS_TO_ROOM ? l->room : *used;
    decoded = 0;
    return fault == REFUSES && refuse(l, payload) ? DCT_PAYLOAD_LACKS_ROOM : answer;
}

static uint32_t spoil_clear(const struct list *l, const struct field *f, uint8_t *payload, struct dct_report *report,
                            uint32_t answer)
{
    size_t at;
    uint8_t bit = bit_beside(l, f, &at);
    if (fault == CLEARS_NOTHING || (fault == KEEPS_MASKED && f->mask_length > 0))
        memcpy(payload, old, l->used);
    if (fault == CLEARS_MORE)
        payload[at] &= (uint8_t)~bit;
    if (fault == COUNTS_FROM_END)
        turn(payload, l->used);
    if (fault == CLEARS_BEFORE)
        payload[-1] = 0;
    if (fault == CLEARS_BEHIND && l->room > l->used)
        payload[l->room - 1] ^= 1;
    report->bit_count += fault == CLEAR_COUNTS ? f->bits : 0;
    return fault == REFUSES_CLEAR && refuse(l, payload) ? DCT_NOT_CLEARABLE : answer;
}

static void spoil_decode(uint8_t *output, size_t length, struct dct_report *report)
{
    decoded = 1;
    report->bit_count += fault == COUNTS_MORE;
    report->bit_count -= fault == COUNTS_LESS;
    if (fault == READS_BEFORE)
        output[-1] = 0;
    if (fault == READS_MORE)
        output[report->byte_count - 1] |= 1;
    if (fault == READS_LESS)
        output[report->byte_count - 1] &= 0xFE;
    if (fault == WRITES_PAST && report->byte_count < length)
        output[report->byte_count] = 0;
}

uint32_t encode(const struct list *l, const struct field *f, const struct value *v, uint8_t *payload, size_t *used,
                struct dct_report *report)
{
    struct dct_report untold, *told = fault == TELLS_NOTHING ? &untold : report;
    uint32_t answer;
    calls++;
    if (fault != NONE)
        prepare_fault(l, payload);
    if (fault == CLEARS_FIRST && f->mask_length == 0)
        dct_clear(record(f), RECORD, store(l), l->store_length, payload, l->room, l->used, f->byte_pos, f->bit_pos, told);
    answer = dct_encode(record(f), RECORD, store(l), l->store_length, input(v), v->length, payload, l->room, used, f->byte_pos,
                        f->bit_pos, told);
    return fault == NONE ? answer : spoil_encode(l, f, payload, used, answer);
}

uint32_t clear(const struct list *l, const struct field *f, uint8_t *payload, struct dct_report *report)
{
    struct field asked = fault == CLEARS_LENGTH ? without_mask(f) : *f;
    uint32_t answer;
    calls++;
    if (fault != NONE)
        prepare_fault(l, payload);
    answer = dct_clear(record(&asked), RECORD, store(l), l->store_length, payload, l->room, l->used, f->byte_pos, f->bit_pos,
                       report);
    return fault == NONE ? answer : spoil_clear(l, f, payload, report, answer);
}

uint32_t decode(const struct list *l, const struct field *f, const uint8_t *payload, uint8_t *output, size_t length,
                struct dct_report *report)
{
    uint32_t answer;
    calls++;
    answer = dct_decode(record(f), RECORD, store(l), l->store_length, payload, l->used, f->byte_pos, f->bit_pos, output, length,
                        report);
    if (fault != NONE && report->byte_count > 0)
        spoil_decode(output, length, report);
    return answer;
}
