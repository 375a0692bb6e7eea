/* The second program: document 01 once more, in C, written to be obviously right and not to be fast. A call tests the
   lengths, decodes every lent byte into the records below, acts on those, and encodes every byte again. A refused call
   encodes nothing. */
#include "store.h"

#include <stdbool.h>
#include <string.h>

enum {
    DESK_BYTES = 1088,
    SLOT_BYTES = 64,
    BODY_BYTES = 52,
    OUT_BYTES = 56,
    POSITIONS = 64,
    MOST_SLOTS = 16384,
    MOST_ENTRIES = 1048576
};

static const uint64_t ALL_ONES = UINT64_MAX;

/* The store as decoded by the present call. */
static struct reading s;

/* ---- bytes */

static uint32_t get32(const uint8_t *from)
{
    return from[0] | (uint32_t)from[1] << 8 | (uint32_t)from[2] << 16 | (uint32_t)from[3] << 24;
}

static uint64_t get64(const uint8_t *from)
{
    return get32(from) | (uint64_t)get32(from + 4) << 32;
}

static void put32(uint8_t *to, uint32_t value)
{
    for (int i = 0; i < 4; i++)
        to[i] = (uint8_t)(value >> 8 * i);
}

static void put64(uint8_t *to, uint64_t value)
{
    for (int i = 0; i < 8; i++)
        to[i] = (uint8_t)(value >> 8 * i);
}

static void decode_records(struct record *records, uint32_t count, const uint8_t *from)
{
    for (uint32_t k = 0; k < count; k++, from += SLOT_BYTES) {
        records[k].number = get32(from);
        memcpy(records[k].body, from + 4, BODY_BYTES);
        records[k].mask = get64(from + 56);
    }
}

static void encode_records(const struct record *records, uint32_t count, uint8_t *to)
{
    for (uint32_t k = 0; k < count; k++, to += SLOT_BYTES) {
        put32(to, records[k].number);
        memcpy(to + 4, records[k].body, BODY_BYTES);
        put64(to + 56, records[k].mask);
    }
}

static void decode(const uint8_t *desk, const uint8_t *table, size_t table_len, const uint8_t *shelf, size_t shelf_len)
{
    s.n = get32(desk);
    s.t = get32(desk + 4);
    s.r = get32(desk + 8);
    s.last = get32(desk + 12);
    s.stable = get64(desk + 16);
    s.active = get64(desk + 24);
    s.local = get64(desk + 32);
    memcpy(s.rest, desk + 40, 24);
    for (int i = 0; i < POSITIONS; i++) {
        const uint8_t *from = desk + 64 + 16 * i;
        s.card[i].ticket = get32(from);
        s.card[i].place = get32(from + 4);
        s.card[i].handed = get32(from + 8);
        s.card[i].zero = get32(from + 12);
    }
    s.slots = (uint32_t)(table_len / SLOT_BYTES);
    s.entries = (uint32_t)(shelf_len / SLOT_BYTES);
    decode_records(s.table, s.slots, table);
    decode_records(s.shelf, s.entries, shelf);
}

static void encode(uint8_t *desk, uint8_t *table, uint8_t *shelf)
{
    put32(desk, s.n);
    put32(desk + 4, s.t);
    put32(desk + 8, s.r);
    put32(desk + 12, s.last);
    put64(desk + 16, s.stable);
    put64(desk + 24, s.active);
    put64(desk + 32, s.local);
    memcpy(desk + 40, s.rest, 24);
    for (int i = 0; i < POSITIONS; i++) {
        uint8_t *to = desk + 64 + 16 * i;
        put32(to, s.card[i].ticket);
        put32(to + 4, s.card[i].place);
        put32(to + 8, s.card[i].handed);
        put32(to + 12, s.card[i].zero);
    }
    encode_records(s.table, s.slots, table);
    encode_records(s.shelf, s.entries, shelf);
}

/* "return one 64-bit number, answer + 256 x value" */
static uint64_t packed(uint64_t answer, uint64_t value)
{
    return answer + 256 * value;
}

/* ---- 1: lengths */

static bool whole_slots(size_t len, size_t most)
{
    if (len % SLOT_BYTES != 0)
        return false;
    if (len / SLOT_BYTES < 1)
        return false;
    return len / SLOT_BYTES <= most;
}

static bool lengths_right(size_t desk_len, size_t table_len, size_t shelf_len)
{
    if (desk_len != DESK_BYTES)
        return false;
    if (!whole_slots(table_len, MOST_SLOTS))
        return false;
    return whole_slots(shelf_len, MOST_ENTRIES);
}

/* ---- 2: the desk is sound */

static bool bit_of(uint64_t mask, uint32_t position)
{
    return mask >> position & 1;
}

static bool card_sound(uint32_t position)
{
    const struct card *c = &s.card[position];
    if ((c->ticket == 0) != bit_of(s.active, position))
        return false;
    if (c->ticket == 0) {
        if (c->place != 0)
            return false;
        if (c->handed != 0)
            return false;
        if (c->zero != 0)
            return false;
        return bit_of(s.local, position);
    }
    if (c->ticket > s.last)
        return false;
    if (c->place > s.t + s.r)
        return false;
    if ((c->place < s.t) == bit_of(s.local, position))
        return false;
    if (c->handed > c->place)
        return false;
    return c->zero == 0;
}

static bool desk_sound(void)
{
    if (s.n < 1)
        return false;
    if (s.n > POSITIONS)
        return false;
    if (s.t != s.slots)
        return false;
    if (s.r != s.entries)
        return false;
    for (int i = 0; i < 24; i++)
        if (s.rest[i] != 0)
            return false;
    for (uint32_t i = s.n; i < POSITIONS; i++) {
        if (bit_of(s.stable, i))
            return false;
        if (!bit_of(s.active, i))
            return false;
        if (!bit_of(s.local, i))
            return false;
    }
    for (uint32_t i = 0; i < POSITIONS; i++)
        if (!card_sound(i))
            return false;
    return true;
}

/* ---- searches; each gives the count where there is none */

/* The lowest record bearing the number; with number 0 the lowest empty one. */
static uint32_t lowest(const struct record *records, uint32_t count, uint32_t number)
{
    uint32_t k = 0;
    while (k < count && records[k].number != number)
        k++;
    return k;
}

static uint32_t free_position(void)
{
    uint32_t i = 0;
    while (i < s.n && !bit_of(s.active, i))
        i++;
    return i;
}

/* The lowest position whose card bears the ticket. */
static uint32_t position_of(uint32_t ticket)
{
    uint32_t i = 0;
    while (i < POSITIONS && s.card[i].ticket != ticket)
        i++;
    return i;
}

static uint32_t in_use(const struct record *records, uint32_t count)
{
    uint32_t used = 0;
    for (uint32_t k = 0; k < count; k++)
        if (records[k].number != 0)
            used++;
    return used;
}

static bool kind_right(const uint8_t *body)
{
    return body[4] == 1 || body[4] == 2 || body[4] == 3;
}

/* ---- the calls */

uint64_t CALL(open)(LENT, uint32_t n)
{
    if (!lengths_right(desk_len, table_len, shelf_len))
        return 1;
    if (n < 1 || n > POSITIONS)
        return 3;
    memset(&s.rest, 0, sizeof s.rest);
    memset(&s.card, 0, sizeof s.card);
    s.slots = (uint32_t)(table_len / SLOT_BYTES);
    s.entries = (uint32_t)(shelf_len / SLOT_BYTES);
    memset(s.table, 0, s.slots * sizeof s.table[0]);
    memset(s.shelf, 0, s.entries * sizeof s.shelf[0]);
    s.n = n;
    s.t = s.slots;
    s.r = s.entries;
    s.last = 0;
    s.stable = 0;
    s.active = ALL_ONES;
    s.local = ALL_ONES;
    encode(desk, table, shelf);
    return 0;
}

uint64_t CALL(insert)(LENT, uint32_t number, const uint8_t *body, size_t body_len)
{
    if (!lengths_right(desk_len, table_len, shelf_len) || body_len != BODY_BYTES)
        return 1;
    decode(desk, table, table_len, shelf, shelf_len);
    if (!desk_sound())
        return 2;
    if (number == 0)
        return 3;
    if (!kind_right(body))
        return 4;
    if (lowest(s.table, s.t, number) < s.t)
        return 5;
    uint32_t slot = lowest(s.table, s.t, 0);
    if (slot == s.t)
        return 7;
    s.table[slot].number = number;
    memcpy(s.table[slot].body, body, BODY_BYTES);
    s.table[slot].mask = ~(s.stable ^ s.local);
    encode(desk, table, shelf);
    return 0;
}

uint64_t CALL(modify)(LENT, uint32_t number, const uint8_t *body, size_t body_len)
{
    if (!lengths_right(desk_len, table_len, shelf_len) || body_len != BODY_BYTES)
        return 1;
    decode(desk, table, table_len, shelf, shelf_len);
    if (!desk_sound())
        return 2;
    if (number == 0)
        return 3;
    if (!kind_right(body))
        return 4;
    uint32_t slot = lowest(s.table, s.t, number);
    if (slot == s.t)
        return 6;
    uint64_t m = (s.stable ^ s.table[slot].mask) | s.local;
    uint32_t entry = lowest(s.shelf, s.r, 0);
    if (m != ALL_ONES && entry == s.r)
        return 8;
    if (m != ALL_ONES) {
        s.shelf[entry] = s.table[slot];
        s.shelf[entry].mask = m;
        s.table[slot].mask = ~(s.stable ^ s.local);
    }
    memcpy(s.table[slot].body, body, BODY_BYTES);
    encode(desk, table, shelf);
    return 0;
}

uint64_t CALL(delete)(LENT, uint32_t number)
{
    if (!lengths_right(desk_len, table_len, shelf_len))
        return 1;
    decode(desk, table, table_len, shelf, shelf_len);
    if (!desk_sound())
        return 2;
    if (number == 0)
        return 3;
    uint32_t slot = lowest(s.table, s.t, number);
    if (slot == s.t)
        return 6;
    uint64_t m = (s.stable ^ s.table[slot].mask) | s.local;
    uint32_t entry = lowest(s.shelf, s.r, 0);
    if (m != ALL_ONES && entry == s.r)
        return 8;
    if (m != ALL_ONES) {
        s.shelf[entry] = s.table[slot];
        s.shelf[entry].mask = m;
    }
    memset(&s.table[slot], 0, sizeof s.table[slot]);
    encode(desk, table, shelf);
    return 0;
}

uint64_t CALL(begin)(LENT)
{
    if (!lengths_right(desk_len, table_len, shelf_len))
        return 1;
    decode(desk, table, table_len, shelf, shelf_len);
    if (!desk_sound())
        return 2;
    uint32_t position = free_position();
    if (position == s.n)
        return 9;
    if (s.last == UINT32_MAX)
        return 11;
    s.active &= ~(UINT64_C(1) << position);
    s.local &= ~(UINT64_C(1) << position);
    s.last++;
    s.card[position] = (struct card){ s.last, 0, 0, 0 };
    encode(desk, table, shelf);
    return packed(0, s.last);
}

/* One look of the scan at this position; whether it put a record in hand. */
static bool look(uint32_t position, uint8_t *out)
{
    struct card *c = &s.card[position];
    uint64_t bit = UINT64_C(1) << position;
    bool in_hand = false;
    if (c->place < s.t) {
        struct record *slot = &s.table[c->place];
        if (slot->number != 0 && ((s.stable ^ slot->mask) & bit) == 0) {
            put32(out, slot->number);
            memcpy(out + 4, slot->body, BODY_BYTES);
            slot->mask ^= bit;
            in_hand = true;
        }
        if (c->place == s.t - 1) {
            s.stable ^= bit;
            s.local |= bit;
        }
    } else {
        struct record *entry = &s.shelf[c->place - s.t];
        if (entry->number != 0 && (entry->mask & bit) == 0) {
            put32(out, entry->number);
            memcpy(out + 4, entry->body, BODY_BYTES);
            entry->mask |= bit;
            in_hand = true;
            if (entry->mask == ALL_ONES)
                memset(entry, 0, sizeof *entry);
        }
    }
    c->place++;
    if (in_hand)
        c->handed++;
    return in_hand;
}

uint64_t CALL(next)(LENT, uint32_t ticket, uint32_t budget, uint8_t *out, size_t out_len)
{
    if (!lengths_right(desk_len, table_len, shelf_len) || out_len != OUT_BYTES)
        return 1;
    decode(desk, table, table_len, shelf, shelf_len);
    if (!desk_sound())
        return 2;
    if (ticket == 0)
        return 10;
    uint32_t position = position_of(ticket);
    if (position == POSITIONS)
        return 10;
    struct card *c = &s.card[position];
    uint32_t looks = 0;
    for (;;) {
        if (c->place == s.t + s.r) {
            uint64_t handed = c->handed;
            s.active |= UINT64_C(1) << position;
            memset(c, 0, sizeof *c);
            encode(desk, table, shelf);
            return packed(101, looks + 2097152 * handed);
        }
        if (looks == budget) {
            encode(desk, table, shelf);
            return packed(100, looks);
        }
        looks++;
        if (look(position, out)) {
            encode(desk, table, shelf);
            return packed(0, looks);
        }
    }
}

uint64_t CALL(tally)(SHOWN)
{
    if (!lengths_right(desk_len, table_len, shelf_len))
        return 1;
    decode(desk, table, table_len, shelf, shelf_len);
    if (!desk_sound())
        return 2;
    return packed(0, in_use(s.table, s.t) + 32768 * (uint64_t)in_use(s.shelf, s.r));
}

uint64_t CALL(owed)(SHOWN, uint32_t ticket)
{
    if (!lengths_right(desk_len, table_len, shelf_len))
        return 1;
    decode(desk, table, table_len, shelf, shelf_len);
    if (!desk_sound())
        return 2;
    if (ticket == 0)
        return 10;
    uint32_t position = position_of(ticket);
    if (position == POSITIONS)
        return 10;
    uint64_t count = 0;
    for (uint32_t k = 0; k < s.t; k++)
        if (s.table[k].number != 0 && bit_of(s.table[k].mask, position) == bit_of(s.stable, position))
            count++;
    for (uint32_t k = 0; k < s.r; k++)
        if (s.shelf[k].number != 0 && !bit_of(s.shelf[k].mask, position))
            count++;
    return packed(0, count);
}

/* ---- what it reads */

const struct reading *CALL(reading)(SHOWN)
{
    static const uint8_t zeros[DESK_BYTES];
    decode(desk_len == DESK_BYTES ? desk : zeros, table, whole_slots(table_len, MOST_SLOTS) ? table_len : 0,
           shelf, whole_slots(shelf_len, MOST_ENTRIES) ? shelf_len : 0);
    return &s;
}

const struct record *CALL(bearing)(uint32_t number)
{
    uint32_t slot = lowest(s.table, s.slots, number);
    return number == 0 || slot == s.slots ? NULL : &s.table[slot];
}
