/* Document 01 once more, in C, written for speed: what the library is measured against. The calls work in the lent bytes,
   read as little-endian words; nothing is decoded. Its names begin with CALLS, as those of the second program: built with
   -DCALLS=inarumpit_ it stands in for the library and is held to the second program's answers and bytes. */
#include "../second/store.h"

#include <stdbool.h>
#include <string.h>

#define INLINE static inline __attribute__((always_inline))
#define RARE(x) __builtin_expect(!!(x), 0)

enum {
    DESK_BYTES = 1088,
    SLOT_BYTES = 64,
    BODY_BYTES = 52,
    OUT_BYTES = 56,
    CARDS_AT = 64,
    CARD_BYTES = 16,
    POSITIONS = 64,
    MOST_SLOTS = 16384,
    MOST_ENTRIES = 1048576,
    AHEAD = 2048              /* bytes; where a search reads next */
};

static const uint64_t ALL_ONES = UINT64_MAX;

/* ---- words */

INLINE uint32_t get32(const uint8_t *from)
{
    uint32_t value;
    memcpy(&value, from, sizeof value);
    return value;
}

INLINE uint64_t get64(const uint8_t *from)
{
    uint64_t value;
    memcpy(&value, from, sizeof value);
    return value;
}

INLINE void put32(uint8_t *to, uint32_t value)
{
    memcpy(to, &value, sizeof value);
}

INLINE void put64(uint8_t *to, uint64_t value)
{
    memcpy(to, &value, sizeof value);
}

/* The number in slot k, or the mask. */
INLINE uint32_t number_at(const uint8_t *slots, size_t k)
{
    return get32(slots + k * SLOT_BYTES);
}

INLINE uint64_t mask_at(const uint8_t *slots, size_t k)
{
    return get64(slots + k * SLOT_BYTES + 56);
}

/* ---- 1: lengths */

INLINE bool lengths_right(size_t desk_len, size_t table_len, size_t shelf_len)
{
    return (desk_len == DESK_BYTES) & ((table_len | shelf_len) % SLOT_BYTES == 0)
         & (table_len - 1 < (size_t)MOST_SLOTS * SLOT_BYTES) & (shelf_len - 1 < (size_t)MOST_ENTRIES * SLOT_BYTES);
}

/* ---- 2: the desk is sound */

/* Eight numbers of 32 bits; a comparison gives all ones where it holds. */
typedef uint32_t eight __attribute__((vector_size(32)));

INLINE eight load(const uint8_t *from)
{
    eight v;
    memcpy(&v, from, sizeof v);
    return v;
}

INLINE eight each(uint32_t v)
{
    return (eight){ v, v, v, v, v, v, v, v };
}

/* All eight in one, by OR. */
INLINE uint32_t joined(eight v)
{
    uint64_t w[4];
    memcpy(w, &v, sizeof v);
    w[0] |= w[1] | (w[2] | w[3]);
    return (uint32_t)(w[0] | w[0] >> 32);
}

/* All bytes of the 64 cards in one, by OR. */
INLINE uint32_t all_cards(const uint8_t *cards)
{
    eight a = each(0), b = a, c = a, d = a;
    for (uint32_t g = 0; g < POSITIONS / 8; g++, cards += 8 * CARD_BYTES) {
        a |= load(cards);
        b |= load(cards + 32);
        c |= load(cards + 64);
        d |= load(cards + 96);
    }
    return joined((a | b) | (c | d));
}

struct head {
    uint32_t n, last;
    uint64_t stable, active, local;
};

/* Reads the head and tests the desk. Where found is not NULL its bit g is set if one of the cards 8g to 8g + 7 bears the
   ticket. */
INLINE bool sound(const uint8_t *desk, size_t table_len, size_t shelf_len, struct head *h, uint32_t ticket, uint32_t *found)
{
    const uint32_t t = (uint32_t)(table_len / SLOT_BYTES), r = (uint32_t)(shelf_len / SLOT_BYTES);
    const uint8_t *cards = desk + CARDS_AT;
    eight wrong = each(0), seen = each(0);
    h->n = get32(desk);
    h->last = get32(desk + 12);
    h->stable = get64(desk + 16);
    h->active = get64(desk + 24);
    h->local = get64(desk + 32);
    uint64_t high = ALL_ONES << 1 << ((h->n - 1) & 63);
    uint64_t bad = (h->n - 1 >= POSITIONS) | (get64(desk + 4) ^ (t | (uint64_t)r << 32)) | get64(desk + 40) | get64(desk + 48)
                 | get64(desk + 56) | (h->stable & high) | (~(h->active & h->local) & high) | (h->active & ~h->local);
    if (h->active == ALL_ONES) {
        if (found != NULL)
            *found = 0;
        return (bad | all_cards(cards)) == 0;
    }
    for (uint32_t g = 0; g < POSITIONS / 8; g++, cards += 8 * CARD_BYTES) {
        eight a = load(cards), b = load(cards + 32), c = load(cards + 64), d = load(cards + 96);
        uint32_t idle = (uint32_t)(h->active >> 8 * g) & 255;
        if (idle == 255) {
            wrong |= (a | b) | (c | d);
            continue;
        }
        /* Rows into columns: cards 0 2 4 6 1 3 5 7 of the eight, as the unpack instructions leave them. */
        const eight bit = { 1, 4, 16, 64, 2, 8, 32, 128 };
        const eight low = { 0, 8, 1, 9, 4, 12, 5, 13 }, high_half = { 2, 10, 3, 11, 6, 14, 7, 15 };
        const eight first = { 0, 1, 8, 9, 4, 5, 12, 13 }, then = { 2, 3, 10, 11, 6, 7, 14, 15 };
        eight ab = __builtin_shuffle(a, b, low), cd = __builtin_shuffle(c, d, low);
        eight tickets = __builtin_shuffle(ab, cd, first), place = __builtin_shuffle(ab, cd, then);
        ab = __builtin_shuffle(a, b, high_half), cd = __builtin_shuffle(c, d, high_half);
        eight handed = __builtin_shuffle(ab, cd, first), zero = __builtin_shuffle(ab, cd, then);
        eight busy = (eight)(tickets != each(0));
        eight must_be_busy = (eight)((bit & each(idle)) == each(0));
        eight must_walk_table = (eight)((bit & each((uint32_t)(h->local >> 8 * g))) == each(0));
        wrong |= (eight)(tickets > each(h->last)) | (eight)(place > each(t + r)) | (eight)(handed > place) | zero
               | (~busy & place) | (busy ^ must_be_busy) | ((busy & (eight)(place < each(t))) ^ must_walk_table);
        if (found != NULL)
            seen |= (eight)(tickets == each(ticket)) & each(1u << g);
    }
    if (found != NULL)
        *found = joined(seen);
    return (bad | joined(wrong)) == 0;
}

/* The card of the lowest position that bears the ticket, found as above. */
INLINE uint32_t position_of(const uint8_t *desk, uint32_t ticket, uint32_t found)
{
    uint32_t position = 8 * (uint32_t)__builtin_ctz(found);
    while (get32(desk + CARDS_AT + CARD_BYTES * position) != ticket)
        position++;
    return position;
}

/* ---- searches; each gives the count where there is none */

/* The lowest slot from k that bears the number; with number 0 the lowest empty one. */
INLINE size_t lowest(const uint8_t *slots, size_t k, size_t count, uint32_t number)
{
    for (; k + 8 <= count; k += 8) {
        __builtin_prefetch(slots + k * SLOT_BYTES + AHEAD);
        for (size_t i = 0; i < 8; i++)
            if (number_at(slots, k + i) == number)
                return k + i;
    }
    while (k < count && number_at(slots, k) != number)
        k++;
    return k;
}

/* The lowest slot that bears one number or the other. */
INLINE size_t lowest_of_two(const uint8_t *slots, size_t count, uint32_t one, uint32_t other)
{
    size_t k = 0;
    for (; k + 8 <= count; k += 8) {
        __builtin_prefetch(slots + k * SLOT_BYTES + AHEAD);
        for (size_t i = 0; i < 8; i++) {
            uint32_t there = number_at(slots, k + i);
            if (there == one || there == other)
                return k + i;
        }
    }
    for (; k < count; k++)
        if (number_at(slots, k) == one || number_at(slots, k) == other)
            return k;
    return k;
}

/* The numbers of eight slots in one, by OR. */
INLINE uint32_t eight_numbers(const uint8_t *slots, size_t k)
{
    uint32_t all = 0;
    for (size_t i = 0; i < 8; i++)
        all |= number_at(slots, k + i);
    return all;
}

/* The lowest slot from k that is in use. */
INLINE size_t lowest_in_use(const uint8_t *slots, size_t k, size_t count)
{
    for (; k + 8 <= count; k += 8) {
        __builtin_prefetch(slots + k * SLOT_BYTES + AHEAD);
        if (RARE(eight_numbers(slots, k) != 0))
            break;
    }
    while (k < count && number_at(slots, k) == 0)
        k++;
    return k;
}

INLINE uint64_t in_use(const uint8_t *slots, size_t count)
{
    uint64_t used = 0;
    size_t k = 0;
    for (; k + 8 <= count; k += 8) {
        __builtin_prefetch(slots + k * SLOT_BYTES + AHEAD);
        for (size_t i = 0; i < 8; i++)
            used += number_at(slots, k + i) != 0;
    }
    for (; k < count; k++)
        used += number_at(slots, k) != 0;
    return used;
}

/* How many are in use whose mask has this bit at this position. */
INLINE uint64_t in_use_with(const uint8_t *slots, size_t count, uint32_t position, uint64_t bit)
{
    const uint64_t turned = ~bit;
    uint64_t found = 0;
    size_t k = 0;
    for (; k + 8 <= count; k += 8) {
        __builtin_prefetch(slots + k * SLOT_BYTES + AHEAD);
        if (eight_numbers(slots, k) == 0)
            continue;
        for (size_t i = 0; i < 8; i++)
            found += (number_at(slots, k + i) != 0) & (mask_at(slots, k + i) >> position ^ turned);
    }
    for (; k < count; k++)
        found += (number_at(slots, k) != 0) & (mask_at(slots, k) >> position ^ turned);
    return found;
}

INLINE bool kind_right(const uint8_t *body)
{
    return body[4] - 1u < 3;
}

/* ---- the calls */

uint64_t CALL(open)(LENT, uint32_t n)
{
    if (!lengths_right(desk_len, table_len, shelf_len))
        return 1;
    if (n - 1 >= POSITIONS)
        return 3;
    memset(desk, 0, DESK_BYTES);
    put32(desk, n);
    put32(desk + 4, (uint32_t)(table_len / SLOT_BYTES));
    put32(desk + 8, (uint32_t)(shelf_len / SLOT_BYTES));
    put64(desk + 24, ALL_ONES);
    put64(desk + 32, ALL_ONES);
    memset(table, 0, table_len);
    memset(shelf, 0, shelf_len);
    return 0;
}

uint64_t CALL(insert)(LENT, uint32_t number, const uint8_t *body, size_t body_len)
{
    struct head h;
    (void)shelf;
    if (RARE(!lengths_right(desk_len, table_len, shelf_len) | (body_len != BODY_BYTES)))
        return 1;
    if (RARE(!sound(desk, table_len, shelf_len, &h, 0, NULL)))
        return 2;
    if (RARE(number == 0))
        return 3;
    if (RARE(!kind_right(body)))
        return 4;
    /* One pass: up to the first empty slot for both, from there for the number. */
    const size_t count = table_len / SLOT_BYTES, k = lowest_of_two(table, count, number, 0);
    if (RARE(lowest(table, k, count, number) != count))
        return 5;
    if (RARE(k == count))
        return 7;
    uint8_t *slot = table + k * SLOT_BYTES;
    put32(slot, number);
    memcpy(slot + 4, body, BODY_BYTES);
    put64(slot + 56, ~(h.stable ^ h.local));
    return 0;
}

/* What modify and delete have in common: finds the slot and shelves its version where a scan waits for it; 0, 6 or 8. */
INLINE uint64_t shelved(uint8_t *table, size_t table_len, uint8_t *shelf, size_t shelf_len, const struct head *h,
                        uint32_t number, uint8_t **slot)
{
    size_t k = lowest(table, 0, table_len / SLOT_BYTES, number);
    if (RARE(k == table_len / SLOT_BYTES))
        return 6;
    *slot = table + k * SLOT_BYTES;
    uint64_t m = (h->stable ^ get64(*slot + 56)) | h->local;
    if (m == ALL_ONES)
        return 0;
    size_t e = lowest(shelf, 0, shelf_len / SLOT_BYTES, 0);
    if (RARE(e == shelf_len / SLOT_BYTES))
        return 8;
    memcpy(shelf + e * SLOT_BYTES, *slot, OUT_BYTES);
    put64(shelf + e * SLOT_BYTES + 56, m);
    put64(*slot + 56, ~(h->stable ^ h->local));
    return 0;
}

uint64_t CALL(modify)(LENT, uint32_t number, const uint8_t *body, size_t body_len)
{
    struct head h;
    uint8_t *slot;
    if (RARE(!lengths_right(desk_len, table_len, shelf_len) | (body_len != BODY_BYTES)))
        return 1;
    if (RARE(!sound(desk, table_len, shelf_len, &h, 0, NULL)))
        return 2;
    if (RARE(number == 0))
        return 3;
    if (RARE(!kind_right(body)))
        return 4;
    uint64_t refused = shelved(table, table_len, shelf, shelf_len, &h, number, &slot);
    if (RARE(refused != 0))
        return refused;
    memcpy(slot + 4, body, BODY_BYTES);
    return 0;
}

uint64_t CALL(delete)(LENT, uint32_t number)
{
    struct head h;
    uint8_t *slot;
    if (RARE(!lengths_right(desk_len, table_len, shelf_len)))
        return 1;
    if (RARE(!sound(desk, table_len, shelf_len, &h, 0, NULL)))
        return 2;
    if (RARE(number == 0))
        return 3;
    uint64_t refused = shelved(table, table_len, shelf, shelf_len, &h, number, &slot);
    if (RARE(refused != 0))
        return refused;
    memset(slot, 0, SLOT_BYTES);
    return 0;
}

uint64_t CALL(begin)(LENT)
{
    struct head h;
    (void)table;
    (void)shelf;
    if (RARE(!lengths_right(desk_len, table_len, shelf_len)))
        return 1;
    if (RARE(!sound(desk, table_len, shelf_len, &h, 0, NULL)))
        return 2;
    /* The bits from N up are 1 as well: the lowest one decides. */
    uint32_t position = h.active == 0 ? POSITIONS : (uint32_t)__builtin_ctzll(h.active);
    if (RARE(position >= h.n))
        return 9;
    if (RARE(h.last == UINT32_MAX))
        return 11;
    uint64_t bit = UINT64_C(1) << position;
    put32(desk + 12, h.last + 1);
    put64(desk + 24, h.active ^ bit);
    put64(desk + 32, h.local & ~bit);
    put64(desk + CARDS_AT + CARD_BYTES * position, h.last + UINT64_C(1));
    return 256 * (h.last + UINT64_C(1));
}

uint64_t CALL(next)(LENT, uint32_t ticket, uint32_t budget, uint8_t *out, size_t out_len)
{
    struct head h;
    uint32_t found;
    if (RARE(!lengths_right(desk_len, table_len, shelf_len) | (out_len != OUT_BYTES)))
        return 1;
    if (RARE(!sound(desk, table_len, shelf_len, &h, ticket, &found)))
        return 2;
    if (RARE(ticket == 0 || found == 0))
        return 10;
    const uint32_t position = position_of(desk, ticket, found);
    const uint64_t bit = UINT64_C(1) << position;
    const size_t t = table_len / SLOT_BYTES, all = t + shelf_len / SLOT_BYTES;
    uint8_t *card = desk + CARDS_AT + CARD_BYTES * position, *in_hand = NULL;
    const size_t from = get32(card + 4), end = budget < all - from ? from + budget : all;
    const uint64_t handed = get32(card + 8);
    size_t place = from;
    if (place < t) {
        const size_t stop = end < t ? end : t;
        while ((place = lowest_in_use(table, place, stop)) < stop) {
            uint8_t *slot = table + place++ * SLOT_BYTES;
            uint64_t status = get64(slot + 56);
            if (((h.stable ^ status) & bit) == 0) {
                memcpy(out, slot, OUT_BYTES);
                put64(slot + 56, status ^ bit);
                in_hand = slot;
                break;
            }
        }
        if (RARE(place == t)) {
            put64(desk + 16, h.stable ^ bit);
            put64(desk + 32, h.local | bit);
        }
    }
    if (in_hand == NULL && place >= t)
        while ((place = t + lowest_in_use(shelf, place - t, end - t)) < end) {
            uint8_t *entry = shelf + (place++ - t) * SLOT_BYTES;
            uint64_t mask = get64(entry + 56);
            if ((mask & bit) == 0) {
                memcpy(out, entry, OUT_BYTES);
                if ((mask | bit) == ALL_ONES)
                    memset(entry, 0, SLOT_BYTES);
                else
                    put64(entry + 56, mask | bit);
                in_hand = entry;
                break;
            }
        }
    const uint64_t looks = place - from;
    if (in_hand != NULL) {
        put64(card + 4, place | (handed + 1) << 32);
        return 256 * looks;
    }
    if (place < all) {
        put32(card + 4, (uint32_t)place);
        return 100 + 256 * looks;
    }
    put64(desk + 24, h.active | bit);
    memset(card, 0, CARD_BYTES);
    return 101 + 256 * (looks + 2097152 * handed);
}

uint64_t CALL(tally)(SHOWN)
{
    struct head h;
    if (RARE(!lengths_right(desk_len, table_len, shelf_len)))
        return 1;
    if (RARE(!sound(desk, table_len, shelf_len, &h, 0, NULL)))
        return 2;
    return 256 * (in_use(table, table_len / SLOT_BYTES) + 32768 * in_use(shelf, shelf_len / SLOT_BYTES));
}

uint64_t CALL(owed)(SHOWN, uint32_t ticket)
{
    struct head h;
    uint32_t found;
    if (RARE(!lengths_right(desk_len, table_len, shelf_len)))
        return 1;
    if (RARE(!sound(desk, table_len, shelf_len, &h, ticket, &found)))
        return 2;
    if (RARE(ticket == 0 || found == 0))
        return 10;
    uint32_t position = position_of(desk, ticket, found);
    return 256 * (in_use_with(table, table_len / SLOT_BYTES, position, h.stable >> position)
                  + in_use_with(shelf, shelf_len / SLOT_BYTES, position, 0));
}
