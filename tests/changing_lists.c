/* Draws lists of numeric fields of given lengths whose own bits are disjoint, though their cut-outs often overlap. What a field
 * owns is worked out bit by bit as RULES 8.1 says it; nothing of that is the library's.
 */
#include <string.h>

#include "changing.h"

uint64_t state, met[KINDS];

/* splitmix64 */
static uint64_t drawn(void)
{
    uint64_t z = state += 0x9E3779B97F4A7C15u;
    z = (z ^ z >> 30) * 0xBF58476D1CE4E5B9u;
    z = (z ^ z >> 27) * 0x94D049BB133111EBu;
    return z ^ z >> 31;
}

size_t below(size_t limit)
{
    return (size_t)(drawn() % limit);
}

void draw_bytes(uint8_t *bytes, size_t length)
{
    uint64_t word = 0;
    size_t i;
    for (i = 0; i < length; i++, word >>= 8) {
        if (i % 8 == 0)
            word = drawn();
        bytes[i] = (uint8_t)word;
    }
}

size_t bytes_of(size_t bits)
{
    return (bits + 7) / 8;
}

static void measure(struct field *f)
{
    f->bits = f->condensed && f->mask_length > 0 ? 8 * f->mask_length : f->length;
    f->cut = bytes_of(f->bit_pos + f->bits);
}

/* A short mask repeats its first byte. */
static int mask_bit(const struct field *f, size_t i)
{
    size_t back = i / 8;
    if (back >= f->mask_length && fault == OWNS_NO_REPETITION)
        return 0;
    if (back >= f->mask_length)
        back = f->mask_length - 1;
    return f->mask[f->mask_length - 1 - back] >> i % 8 & 1;
}

/* Bit b of the ordered cut-out stands in byte b/8 from its end, or from its front where the order turns it. */
static void find_own(struct field *f)
{
    size_t cut = fault == OWNS_DECODED ? bytes_of(f->length) : f->cut;
    size_t i, bit;
    memset(f->own, 0, CUT);
    for (i = 0; i < f->bits; i++) {
        bit = f->bit_pos + i;
        if (bit / 8 < cut && (f->mask_length == 0 || fault == OWNS_LENGTH || mask_bit(f, i)))
            f->own[f->high_low ? cut - 1 - bit / 8 : bit / 8] |= (uint8_t)(1 << bit % 8);
    }
}

uint8_t own_at(const struct field *f, size_t at)
{
    return at >= f->byte_pos && at - f->byte_pos < CUT ? f->own[at - f->byte_pos] : 0;
}

/* Sparse, dense, or the same in each byte. */
static void draw_mask_bytes(uint8_t *mask)
{
    uint8_t more[MASK];
    size_t density = below(4), i;
    draw_bytes(mask, MASK);
    draw_bytes(more, MASK);
    for (i = 0; i < MASK; i++)
        mask[i] = (uint8_t)(density == 0 ? mask[i] & more[i] : density == 1 ? mask[i] | more[i] : mask[i]);
    if (density == 3)
        memset(mask, below(2) ? 0xFF : 1 << below(8), MASK);
}

/* Condensed without a mask is legal and says nothing; a condensed mask with more bits than the field would be refused. */
static void draw_mask(struct field *f)
{
    size_t whole = bytes_of(f->length);
    f->masked = below(8) < 5;
    f->condensed = f->masked ? below(5) < 2 : below(4) == 0;
    f->mask_length = 0;
    if (f->masked && f->condensed)
        f->mask_length = below(2) ? f->length / 8 : below(f->length / 8 + 1);
    else if (f->masked)
        f->mask_length = below(3) ? (below(2) ? whole : below(whole)) : whole + below(MASK - 8 + 1);
    draw_mask_bytes(f->mask);
}

/* A field that is too long for the payload is placed before it, and so not taken. */
static struct field draw_field(size_t size)
{
    static const uint8_t types[] = {FLOAT32, FLOAT64, INT32, INT32, INT32, UINT32, UINT32, UINT32};
    static const uint8_t lengths[] = {1, 2, 3, 4, 5, 6, 7, 8, 12, 12, 16, 16, 24, 24, 32, 64};
    struct field f;
    memset(&f, 0, sizeof f);
    f.type = types[below(sizeof types)];
    f.length = f.type == FLOAT32 ? 32 : f.type == FLOAT64 ? 64 : below(4) ? lengths[below(sizeof lengths)] : 1 + below(64);
    f.high_low = (uint8_t)below(2);
    f.bit_pos = below(2) ? below(8) : 0;
    draw_mask(&f);
    measure(&f);
    f.byte_pos = f.cut > size || below(4) == 0 ? size - f.cut : below(size - f.cut + 1);
    return f;
}

/* The field again under a mask that the other's leaves free, whole or in part. */
static struct field draw_complement(struct field f)
{
    uint8_t part[MASK];
    size_t i;
    draw_bytes(part, MASK);
    for (i = 0; i < f.mask_length; i++)
        f.mask[i] = (uint8_t)(~f.mask[i] & (below(2) ? 0xFF : part[i]));
    return f;
}

/* A field that begins with the bit above the other's highest. */
static struct field draw_neighbour(const struct field *other, size_t size)
{
    struct field f = draw_field(size);
    size_t end = other->bit_pos + other->bits;
    size_t at = other->byte_pos + (other->high_low ? other->cut - 1 - end / 8 : end / 8);
    f.bit_pos = end % 8;
    measure(&f);
    f.byte_pos = f.high_low ? at + 1 - f.cut : at;
    return f;
}

/* Fields end within the used bytes, whatever room there is behind them. */
static size_t size_for_fields(const struct list *l)
{
    return fault == ENDS_BEHIND ? l->room : l->used;
}

static struct field draw_candidate(const struct list *l)
{
    const struct field *other = &l->fields[below(l->count + 1)];
    if (other == &l->fields[l->count] || below(3) == 0)
        return draw_field(size_for_fields(l));
    return other->mask_length > 0 && below(4) ? draw_complement(*other) : draw_neighbour(other, size_for_fields(l));
}

/* Encode accepts it there, and no other field owns its bits. A position that wrapped below 0 is past the payload. */
static int is_free(const struct list *l, const struct field *f)
{
    size_t size = size_for_fields(l), i;
    if (f->cut > size || f->byte_pos > size - f->cut)
        return 0;
    for (i = 0; i < CUT && f->byte_pos + i < size; i++)
        if (l->taken[f->byte_pos + i] & f->own[i])
            return 0;
    return 1;
}

static int overlaps(const struct list *l, const struct field *f)
{
    size_t i;
    for (i = 0; i < l->count; i++)
        if (f->byte_pos < l->fields[i].byte_pos + l->fields[i].cut && l->fields[i].byte_pos < f->byte_pos + f->cut)
            return 1;
    return 0;
}

static void meet(const struct list *l, const struct field *f)
{
    static const uint8_t nothing[CUT];
    int plain = !f->condensed && f->mask_length > 0, condensed = f->condensed && f->mask_length > 0;
    met[OVERLAP] += overlaps(l, f);
    met[ACROSS] += !f->high_low && f->cut > bytes_of(f->bits);
    met[TWELVE] += f->length == 12;
    met[SHORT] += plain && f->mask_length < bytes_of(f->length);
    met[LONG] += plain && f->mask_length > bytes_of(f->length);
    met[CONDENSED] += condensed && f->bits < f->length;
    met[WHOLE] += condensed && f->bits == f->length;
    met[EMPTY] += f->masked && f->mask_length == 0;
    met[NOTHING] += memcmp(f->own, nothing, CUT) == 0;
}

static void draw_value(struct value *v, size_t length)
{
    size_t kind = below(256), whole = bytes_of(length);
    v->length = kind == 0 ? below(VALUE) : kind < 64 ? below(21) : kind < 128 ? whole - 1 + below(3) : whole;
    draw_bytes(v->bytes, v->length);
}

static void take(struct list *l, struct field f)
{
    size_t i;
    meet(l, &f);
    f.mask_place = f.masked ? l->store_length : 0;
    memcpy(l->store + l->store_length, f.mask, f.mask_length);
    l->store_length += f.mask_length;
    for (i = 0; i < CUT && f.byte_pos + i < size_for_fields(l); i++)
        l->taken[f.byte_pos + i] |= f.own[i];
    draw_value(&l->values[l->count], f.length);
    l->fields[l->count++] = f;
}

static void shuffle(size_t *order, size_t count)
{
    size_t i, other;
    for (i = 0; i < count; i++) {
        other = below(i + 1);
        order[i] = order[other];
        order[other] = i;
    }
}

static size_t draw_used(void)
{
    size_t kind = below(400);
    return kind == 0 ? SLICE : kind < 16 ? 1 + below(4000) : 1 + below(24);
}

/* How many bytes the slice has behind the used ones, of at most so many: none, some or all. */
static size_t draw_behind(size_t most)
{
    size_t kind = below(400), behind = kind == 0 ? most : kind < 16 ? below(4000) : kind < 100 ? 0 : 1 + below(40);
    return behind < most ? behind : most;
}

void draw_list(struct list *l)
{
    size_t wanted = 1 + below(FIELDS), tries;
    struct field f;
    l->used = draw_used();
    l->room = l->used + draw_behind(SLICE - l->used);
    draw_bytes(l->behind, l->room - l->used);
    met[LARGEST] += l->used == SLICE;
    met[SOME_BEHIND] += l->room > l->used;
    met[LARGEST_BEHIND] += l->used < SLICE && l->room == SLICE;
    l->count = l->store_length = 0;
    memset(l->taken, 0, l->room);
    for (tries = 0; l->count < wanted && (tries < 3 * FIELDS || l->count == 0); tries++) {
        f = draw_candidate(l);
        find_own(&f);
        if (is_free(l, &f))
            take(l, f);
    }
    l->changed = below(l->count);
    draw_value(&l->new_value, l->fields[l->changed].length);
    shuffle(l->order, l->count);
    shuffle(l->order_anew, l->count);
}
