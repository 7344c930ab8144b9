/* Tries on random lists of fields that changing one field equals building anew: a field cleared and written with a new value
 * leaves the payload that the whole list with that value gives, in whatever order, and no bit has changed but the field's own.
 *
 *     changing CALLS SEED     makes so many calls
 *     changing faults SEED    puts faults around the library and into what is demanded, and sees each noticed by the
 *                             statement that is to notice it
 */
#include <errno.h>
#include <inttypes.h>
#include <stdio.h>
#include <stdlib.h>
#include <string.h>
#include <time.h>

#include "changing.h"

/* What is demanded: (a) to (d) of docs/CHANGING.md, and more than that from (e) on. */
enum { A_ENCODE, A_USED, A_CLEAR, G_LENT, H_BEHIND, B_ANEW, C_ALONE, F_UNOWNED };
enum { D_COUNTS = F_UNOWNED + 1, D_BITS, D_REST, E_ZEROS, E_OVER, E_CLEAR, ALL_HOLD };

static const char *const statements[ALL_HOLD] = {
    [A_ENCODE] = "(a) an encode gives 0 and counts nothing",
    [A_USED] = "(a) an encode keeps the used length",
    [A_CLEAR] = "(a) a clear gives 0 and counts nothing",
    [G_LENT] = "(g) nothing is written outside what is lent",
    [H_BEHIND] = "(h) the bytes behind the used ones stay",
    [B_ANEW] = "(b) changing a field equals building anew",
    [C_ALONE] = "(c) changing a field changes its own bits alone",
    [F_UNOWNED] = "(f) bits that no field owns stay 0 when a list is built",
    [D_COUNTS] = "(d) what was written is read back, with its counts",
    [D_BITS] = "(d) what was written is read back, with every bit",
    [D_REST] = "(d) the output past the result stays",
    [E_ZEROS] = "(e) a write on zeros sets its own bits alone",
    [E_OVER] = "(e) a write is an OR, and under a mask the source",
    [E_CLEAR] = "(e) a clear zeroes its own bits alone",
};

enum { FILL = 0xA5, FAULT_CALLS = 200000, CALLS_FOR_ALL_KINDS = 100000, SHOWN = 64 };

static const char *const kinds[KINDS] = {
    [OVERLAP] = "overlapping cut-outs",
    [ACROSS] = "low-high across bytes at a bit position",
    [TWELVE] = "of length 12",
    [SHORT] = "short plain masks",
    [LONG] = "long plain masks",
    [CONDENSED] = "condensed masks below the length",
    [WHOLE] = "condensed masks of the length",
    [EMPTY] = "empty masks",
    [NOTHING] = "owning nothing",
    [LARGEST] = "payloads of 65535 bytes",
    [SOME_BEHIND] = "with bytes behind the used ones",
    [LARGEST_BEHIND] = "with all the room that a slice can have",
    [BACK_LOW] = "read back below a byte at bit 0",
    [BACK_HIGH] = "read back below a byte at other bits",
    [BACK_TURNED] = "read back low-high, several bytes",
    [BACK_BYTES] = "read back otherwise",
};

/* Each with the statement that is to notice it. */
static const struct {
    int noticed_by;
    const char *name;
} faults[FAULTS] = {
    [NONE] = {ALL_HOLD, "no fault"},
    [WRITES_NOTHING] = {D_BITS, "an encode that writes nothing of the value"},
    [KEEPS_UNDER_MASK] = {E_OVER, "an encode that clears nothing under a mask"},
    [CLEARS_FIRST] = {E_OVER, "an encode that clears first without a mask"},
    [SETS_MORE] = {B_ANEW, "an encode that sets a bit beside its own"},
    [SETS_UNOWNED] = {F_UNOWNED, "an encode that sets a bit that no field owns"},
    [SETS_AFTER_DECODE] = {E_ZEROS, "an encode that sets a bit beside its own after a decode"},
    [LEAVES_TURNED] = {B_ANEW, "an encode that leaves the bits between its own turned"},
    [GROWS] = {A_USED, "an encode that uses a byte more"},
    [GROWS_TO_ROOM] = {A_USED, "an encode that uses all of the slice"},
    [REFUSES] = {A_ENCODE, "an encode refused now and then"},
    [TELLS_NOTHING] = {A_ENCODE, "an encode that writes no report"},
    [WRITES_BEFORE] = {G_LENT, "an encode that writes the byte before the payload"},
    [WRITES_BEHIND] = {H_BEHIND, "an encode that writes the byte behind the used ones"},
    [ZEROES_BEHIND] = {H_BEHIND, "an encode that zeroes all bytes behind the used ones"},
    [COUNTS_FROM_END] = {C_ALONE, "an encode and a clear that count bytes from the payload's end"},
    [CLEARS_NOTHING] = {B_ANEW, "a clear that clears nothing"},
    [KEEPS_MASKED] = {E_CLEAR, "a clear that clears nothing under a mask"},
    [CLEARS_LENGTH] = {B_ANEW, "a clear of all of the length, mask or not"},
    [CLEARS_MORE] = {B_ANEW, "a clear that clears a bit beside its own"},
    [REFUSES_CLEAR] = {A_CLEAR, "a clear refused now and then"},
    [CLEAR_COUNTS] = {A_CLEAR, "a clear that counts"},
    [CLEARS_BEFORE] = {G_LENT, "a clear that writes the byte before the payload"},
    [CLEARS_BEHIND] = {H_BEHIND, "a clear that writes the last byte of the slice"},
    [COUNTS_MORE] = {D_COUNTS, "a decode that counts a bit more"},
    [COUNTS_LESS] = {D_COUNTS, "a decode that counts a bit less"},
    [READS_MORE] = {D_BITS, "a decode that gives a bit more"},
    [READS_LESS] = {D_BITS, "a decode that gives a bit less"},
    [WRITES_PAST] = {D_REST, "a decode that writes past its result"},
    [READS_BEFORE] = {G_LENT, "a decode that writes the byte before the output"},
    [OWNS_NO_REPETITION] = {B_ANEW, "ownership without a short mask's repetition"},
    [OWNS_LENGTH] = {E_OVER, "ownership of all of the length, mask or not"},
    [OWNS_DECODED] = {B_ANEW, "ownership by the bytes that decode cuts"},
    [ENDS_BEHIND] = {A_USED, "fields that end behind the used bytes"},
    [ANY_LENGTH] = {D_BITS, "read back without a premise: lengths such as 12"},
    [BITS_ABOVE] = {D_BITS, "read back without a premise: bits above the length"},
    [EMPTY_MASK] = {D_COUNTS, "read back without a premise: an empty mask"},
    [OTHER_MASK] = {D_COUNTS, "read back without a premise: another mask"},
    [PAST_EDGE] = {D_COUNTS, "read back without a premise: across the byte edge"},
    [ANY_VALUE] = {D_COUNTS, "read back without a premise: values of any size"},
};

static struct list l;
static uint64_t lists;
static uint8_t *payloads[3], *outputs;
static uint8_t source[SLICE], before[SLICE], written[SLICE], cleared[SLICE];
static int failed; /* the first statement that did not hold */
static uint64_t failed_at;

/* Of the statements that a fault breaks, which one comes upon it first is often the lists' chance. The first of them in the
 * order above is to notice it, so those after that one are not looked at. */
static void hold(int true_, int statement)
{
    if (true_ || failed != ALL_HOLD || statement > faults[fault].noticed_by)
        return;
    failed = statement;
    failed_at = calls;
}

static const struct dct_report rubbish = {9, 9, 9, 9};

static int is_report(const struct dct_report *report, size_t bit_count, size_t byte_count)
{
    return report->bit_count == bit_count && report->byte_count == byte_count && report->expected == 0 && report->actual == 0;
}

/* Neither before what is lent nor behind what is used. */
static void hold_around(const uint8_t *payload)
{
    hold(is_marked(payload), G_LENT);
    hold(memcmp(payload + l.used, l.behind, l.room - l.used) == 0, H_BEHIND);
}

static void put(const struct field *f, const struct value *v, uint8_t *payload)
{
    struct dct_report report = rubbish;
    size_t used = l.used;
    uint32_t answer = encode(&l, f, v, payload, &used, &report);
    hold(answer == DCT_OK && is_report(&report, 0, 0), A_ENCODE);
    hold(used == l.used, A_USED);
    hold_around(payload);
}

static void erase(const struct field *f, uint8_t *payload)
{
    struct dct_report report = rubbish;
    uint32_t answer = clear(&l, f, payload, &report);
    hold(answer == DCT_OK && is_report(&report, 0, 0), A_CLEAR);
    hold_around(payload);
}

/* The list in an order, with this value for the field that is to be changed. */
static void build(const size_t *order, const struct value *of_changed, uint8_t *payload)
{
    size_t i;
    memset(payload, 0, l.used);
    for (i = 0; i < l.count; i++)
        put(&l.fields[order[i]], order[i] == l.changed ? of_changed : &l.values[order[i]], payload);
}

/* (b), (c) and (f), with the changed payload left in the second. */
static void change(const struct field *f, const uint8_t *built, uint8_t *changed, uint8_t *anew)
{
    size_t i;
    int outside = 0, unowned = 0;
    memcpy(changed, built, l.used);
    erase(f, changed);
    put(f, &l.new_value, changed);
    build(l.order_anew, &l.new_value, anew);
    hold(memcmp(changed, anew, l.used) == 0, B_ANEW);
    for (i = 0; i < l.used; i++) {
        outside |= (built[i] ^ changed[i]) & ~own_at(f, i);
        unowned |= built[i] & ~l.taken[i];
    }
    hold(outside == 0, C_ALONE);
    hold(unowned == 0, F_UNOWNED);
}

/* The premises of (d) on the field. */
static int reads_back(const struct field *f)
{
    int unmasked = !f->masked || (fault == EMPTY_MASK && f->mask_length == 0) || (fault == OTHER_MASK && f->mask_length > 0);
    int untrimmed = f->length < 8 || f->length % 8 == 0 || fault == ANY_LENGTH;
    int within = f->bit_pos + f->length <= 8 * bytes_of(f->length) || fault == PAST_EDGE;
    return unmasked && untrimmed && within;
}

/* The new value with the premises of (d): as many bytes as the length takes, and no bit above it. */
static const struct value *exact(const struct field *f, const struct value *v)
{
    static struct value made;
    size_t i, from_end;
    made.length = fault == ANY_VALUE ? v->length : bytes_of(f->length);
    for (i = 0; i < made.length; i++) {
        from_end = made.length - 1 - i;
        made.bytes[i] = from_end < v->length ? v->bytes[v->length - 1 - from_end] : 0;
        if (f->length < 8 * from_end + 8 && fault != BITS_ABOVE)
            made.bytes[i] &= (uint8_t)(f->length > 8 * from_end ? (1 << f->length % 8) - 1 : 0);
    }
    return &made;
}

static int kind_of_read_back(const struct field *f)
{
    if (f->length < 8)
        return f->bit_pos == 0 ? BACK_LOW : BACK_HIGH;
    return f->length > 8 && !f->high_low ? BACK_TURNED : BACK_BYTES;
}

static void read_back(const struct field *f, const struct value *v, uint8_t *payload)
{
    struct dct_report report = rubbish;
    size_t whole = bytes_of(f->length), length = (v->length > whole ? v->length : whole) + below(4), i;
    uint8_t *output = lend(outputs, length);
    uint32_t answer;
    int rest = 0;
    met[kind_of_read_back(f)]++;
    erase(f, payload);
    put(f, v, payload);
    memset(output, FILL, length);
    answer = decode(&l, f, payload, output, length, &report);
    hold(is_marked(output), G_LENT);
    hold_around(payload);
    hold(answer == DCT_OK && is_report(&report, f->length, v->length), D_COUNTS);
    hold(memcmp(output, v->bytes, v->length) == 0, D_BITS);
    for (i = v->length; i < length; i++)
        rest |= output[i] ^ FILL;
    hold(rest == 0, D_REST);
}

/* What a list cannot show, since its fields meet zeros: over old bits a write is an OR where there is no mask, and under one
 * the field becomes the source, which is what the write gives on zeros. */
static void write_over(const struct field *f, uint8_t *payload)
{
    size_t i;
    int own, loose = 0;
    memset(payload, 0, l.used);
    put(f, &l.new_value, payload);
    memcpy(source, payload, l.used);
    draw_bytes(before, l.used);
    for (i = 0; i < l.used; i++) {
        own = own_at(f, i);
        cleared[i] = (uint8_t)(before[i] & ~own);
        written[i] = (uint8_t)((f->mask_length > 0 ? cleared[i] : before[i]) | (source[i] & own));
        loose |= source[i] & ~own;
    }
    hold(loose == 0, E_ZEROS);
    memcpy(payload, before, l.used);
    put(f, &l.new_value, payload);
    hold(memcmp(payload, written, l.used) == 0, E_OVER);
    erase(f, payload);
    hold(memcmp(payload, cleared, l.used) == 0, E_CLEAR);
}

/* A slice with room, and old bytes behind those that will be used. */
static uint8_t *lend_payload(uint8_t *start)
{
    uint8_t *payload = lend(start, l.room);
    memcpy(payload + l.used, l.behind, l.room - l.used);
    return payload;
}

static void try_list(void)
{
    const struct field *f;
    uint8_t *built, *changed, *anew;
    draw_list(&l);
    lists++;
    f = &l.fields[l.changed];
    built = lend_payload(payloads[0]);
    changed = lend_payload(payloads[1]);
    anew = lend_payload(payloads[2]);
    build(l.order, &l.values[l.changed], built);
    change(f, built, changed, anew);
    if (reads_back(f))
        read_back(f, exact(f, &l.new_value), changed);
    write_over(f, anew);
}

static void show_bytes(const char *what, const uint8_t *bytes, size_t length)
{
    size_t i;
    printf("%s ", what);
    for (i = 0; i < length; i++)
        printf("%02X", bytes[i]);
    printf(length == 0 ? "(empty)" : "");
}

static void show_order(const char *what, const size_t *order)
{
    size_t i;
    printf("  %s:", what);
    for (i = 0; i < l.count; i++)
        printf(" %zu", order[i]);
    printf("\n");
}

static void show_field(const struct field *f, const struct value *v)
{
    printf("type %d, %s, length %zu, byte %zu, bit %zu, ", f->type, f->high_low ? "high-low" : "low-high", f->length,
           f->byte_pos, f->bit_pos);
    if (f->masked)
        show_bytes(f->condensed ? "condensed mask" : "plain mask", f->mask, f->mask_length);
    else
        printf(f->condensed ? "no mask but condensed" : "no mask");
    show_bytes(", value", v->bytes, v->length);
    printf("\n");
}

static void show_case(uint64_t seed)
{
    size_t i;
    printf("changing: after %" PRIu64 " calls (seed %" PRIu64 ") this does not hold: %s\n", failed_at, seed,
           statements[failed]);
    printf("  payload of %zu bytes, with room for %zu\n", l.used, l.room);
    for (i = 0; i < l.count; i++) {
        printf("  field %zu: ", i);
        show_field(&l.fields[i], &l.values[i]);
    }
    printf("  changed: field %zu", l.changed);
    show_bytes(", new value", l.new_value.bytes, l.new_value.length);
    printf("\n");
    show_order("order", l.order);
    show_order("order anew", l.order_anew);
    show_bytes("  written over in (e):", before, l.used < SHOWN ? l.used : SHOWN);
    printf(l.used > SHOWN ? " and so on\n" : "\n");
}

/* Until so many calls are made or a statement fails. */
static void run(uint64_t limit)
{
    time_t shown = time(NULL), now;
    failed = ALL_HOLD;
    for (calls = lists = 0; calls < limit && failed == ALL_HOLD; try_list()) {
        now = lists % 256 == 0 ? time(NULL) : shown;
        if (now < shown + 10)
            continue;
        fprintf(stderr, "changing: %" PRIu64 " of %" PRIu64 " calls\n", calls, limit);
        shown = now;
    }
}

static int tell(uint64_t seed)
{
    uint64_t back = met[BACK_LOW] + met[BACK_HIGH] + met[BACK_TURNED] + met[BACK_BYTES];
    int kind, missing = 0;
    printf("changing: %" PRIu64 " calls, %" PRIu64 " lists, %" PRIu64 " read back, 0 differences (seed %" PRIu64 ")\n", calls,
           lists, back, seed);
    for (kind = 0; kind < KINDS; kind++) {
        printf("%s%" PRIu64 " %s", kind == 0 ? "changing: " : ", ", met[kind], kinds[kind]);
        missing += met[kind] == 0;
    }
    printf("\n");
    if (missing == 0 || calls < CALLS_FOR_ALL_KINDS)
        return 0;
    fprintf(stderr, "changing: %d of these kinds never arose\n", missing);
    return 1;
}

static void tell_fault(void)
{
    const char *verdict = failed == faults[fault].noticed_by ? "" : "NOT AS IT SHOULD BE: ";
    if (failed == ALL_HOLD)
        printf("%snothing noticed in %" PRIu64 " calls: %s\n", verdict, calls, faults[fault].name);
    else
        printf("%snoticed at call %" PRIu64 ": %s, by %s\n", verdict, failed_at, faults[fault].name, statements[failed]);
}

/* The statements that noticed nothing, of which nobody knows that they can fail. */
static int tell_idle(const int *noticed)
{
    int statement, idle = 0;
    for (statement = 0; statement < ALL_HOLD; statement++) {
        if (noticed[statement] == 0)
            printf("NOT AS IT SHOULD BE: no fault noticed by %s\n", statements[statement]);
        idle += noticed[statement] == 0;
    }
    return idle;
}

/* Each with the same lists from the start. Without a fault nothing may be noticed. */
static int run_faults(uint64_t seed)
{
    int wrong = 0, noticed[ALL_HOLD + 1] = {0};
    for (fault = NONE; fault < FAULTS; fault++) {
        state = seed;
        run(FAULT_CALLS);
        tell_fault();
        wrong += failed != faults[fault].noticed_by;
        noticed[failed]++;
    }
    wrong += tell_idle(noticed);
    printf("changing: %d faults for %d statements, %s (seed %" PRIu64 ")\n", FAULTS - 1, ALL_HOLD,
           wrong == 0 ? "each noticed by its own" : "NOT as it should be", seed);
    return wrong > 0;
}

static uint64_t number(const char *word, uint64_t least, const char *what)
{
    char *end;
    uint64_t n;
    errno = 0;
    n = strtoull(word, &end, 10);
    if (word[0] < '0' || word[0] > '9' || *end != '\0' || errno != 0 || n < least) {
        fprintf(stderr, "changing: '%s' is not %s\n", word, what);
        exit(2);
    }
    return n;
}

int main(int words, char **word)
{
    int tries_faults = words == 3 && strcmp(word[1], "faults") == 0, i;
    uint64_t limit, seed;
    if (words != 3) {
        fprintf(stderr, "changing: give two words, CALLS or 'faults', and SEED\n");
        return 2;
    }
    limit = tries_faults ? 0 : number(word[1], 1, "'faults', nor a number of calls from 1 up");
    seed = number(word[2], 0, "a seed, which is a number below 2^64");
    prepare_calls();
    outputs = region();
    for (i = 0; i < 3; i++)
        payloads[i] = region();
    if (tries_faults)
        return run_faults(seed);
    state = seed;
    run(limit);
    if (failed != ALL_HOLD)
        show_case(seed);
    return failed != ALL_HOLD ? 1 : tell(seed);
}
