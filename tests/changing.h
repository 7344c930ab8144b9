/* What the parts of the run `changing` share: lists of fields drawn at random (changing_lists.c), the library called by a
 * field, with or without a fault around it (changing_calls.c), and what is demanded of it (changing.c).
 */
#ifndef CHANGING_H
#define CHANGING_H

#include "dct.h"

enum { SLICE = 65535, FIELDS = 12, CUT = 9, MASK = 11, VALUE = 4096 };
enum { INT32 = 1, UINT32 = 2, FLOAT32 = 3, FLOAT64 = 8 }; /* types, as records tell them */

struct value {
    size_t length;
    uint8_t bytes[VALUE];
};

struct field {
    uint8_t type, high_low, masked, condensed;
    size_t length, byte_pos, bit_pos;
    size_t mask_place, mask_length;
    uint8_t mask[MASK];
    size_t bits, cut; /* what a write takes: so many bits, of so many bytes from byte_pos on */
    uint8_t own[CUT]; /* its own bits of these bytes */
};

/* Fields with their values, for a payload of so many used bytes, and one of them that is to be changed. */
struct list {
    size_t used, room; /* the slice has room for more than is used */
    size_t count, changed;
    struct field fields[FIELDS];
    struct value values[FIELDS], new_value;
    size_t order[FIELDS], order_anew[FIELDS];
    size_t store_length;
    uint8_t store[FIELDS * MASK];
    uint8_t taken[SLICE];  /* the bits that some field owns */
    uint8_t behind[SLICE]; /* the bytes behind the used ones, as they come */
};

/* Kinds that a run has to meet. */
enum { OVERLAP, ACROSS, TWELVE, SHORT, LONG, CONDENSED, WHOLE, EMPTY, NOTHING, LARGEST };
enum { SOME_BEHIND = LARGEST + 1, LARGEST_BEHIND };
enum { BACK_LOW = LARGEST_BEHIND + 1, BACK_HIGH, BACK_TURNED, BACK_BYTES, KINDS };

extern uint64_t state, met[KINDS];

void draw_bytes(uint8_t *bytes, size_t length);
size_t below(size_t limit);
void draw_list(struct list *l);
size_t bytes_of(size_t bits);
uint8_t own_at(const struct field *f, size_t at); /* the field's own bits of a byte of the payload */

/* Faults around the library's calls and in what a field owns, and premises that are dropped. */
enum { NONE, WRITES_NOTHING, KEEPS_UNDER_MASK, CLEARS_FIRST, SETS_MORE, SETS_UNOWNED, SETS_AFTER_DECODE, LEAVES_TURNED };
enum { GROWS = LEAVES_TURNED + 1, GROWS_TO_ROOM, REFUSES, TELLS_NOTHING, WRITES_BEFORE, WRITES_BEHIND, ZEROES_BEHIND };
enum { COUNTS_FROM_END = ZEROES_BEHIND + 1 };
enum { CLEARS_NOTHING = COUNTS_FROM_END + 1, KEEPS_MASKED, CLEARS_LENGTH, CLEARS_MORE };
enum { REFUSES_CLEAR = CLEARS_MORE + 1, CLEAR_COUNTS, CLEARS_BEFORE, CLEARS_BEHIND };
enum { COUNTS_MORE = CLEARS_BEHIND + 1, COUNTS_LESS, READS_MORE, READS_LESS, WRITES_PAST, READS_BEFORE };
enum { OWNS_NO_REPETITION = READS_BEFORE + 1, OWNS_LENGTH, OWNS_DECODED, ENDS_BEHIND };
enum { ANY_LENGTH = ENDS_BEHIND + 1, BITS_ABOVE, EMPTY_MASK, OTHER_MASK, PAST_EDGE, ANY_VALUE, FAULTS };

extern int fault;
extern uint64_t calls;

uint8_t *region(void);                        /* its last byte is before a page that cannot be touched */
uint8_t *lend(uint8_t *start, size_t length); /* so many bytes at its end, behind marked ones */
int is_marked(const uint8_t *lent);           /* the bytes before it are as they were marked */
void prepare_calls(void);
uint32_t encode(const struct list *l, const struct field *f, const struct value *v, uint8_t *payload, size_t *used,
                struct dct_report *report);
uint32_t clear(const struct list *l, const struct field *f, uint8_t *payload, struct dct_report *report);
uint32_t decode(const struct list *l, const struct field *f, const uint8_t *payload, uint8_t *output, size_t length,
                struct dct_report *report);

#endif
