#include "foreign.h"

#include <string.h>

#include "sequences.h"

/* ---- the desk */

static uint32_t draw_place(struct chance *chance, const struct desk *d)
{
    uint32_t whole = d->slots + d->entries;
    switch (below(chance, 6)) {
    case 0: return 0;
    case 1: return d->slots - 1;
    case 2: return d->slots;
    case 3: return whole - below(chance, 2);
    default: return below(chance, whole + 1);
    }
}

static void draw_desk(struct chance *chance, struct desk *d)
{
    static const uint32_t lasts[] = { 1, 2, 70, UINT32_C(0x7FFFFFFF), UINT32_MAX - 1, UINT32_MAX };
    uint32_t busy = below(chance, 4);
    d->n = one_in(chance, 4) ? 64 : one_in(chance, 3) ? between(chance, 60, 63) : between(chance, 1, 6);
    d->last = lasts[below(chance, 6)];
    d->stable = draw(chance);
    d->active = d->local = UINT64_MAX;
    memset(d->ticket, 0, sizeof d->ticket);
    memset(d->place, 0, sizeof d->place);
    memset(d->handed, 0, sizeof d->handed);
    if (d->n < 64)
        d->stable &= (UINT64_C(1) << d->n) - 1;
    for (uint32_t i = 0; i < d->n; i++) {
        if (below(chance, 4) >= busy)
            continue;
        /* Few tickets, so that some stand on two cards. */
        uint32_t most = d->last < 4 ? d->last : 4;
        d->ticket[i] = one_in(chance, 3) ? d->last : between(chance, 1, most);
        d->place[i] = draw_place(chance, d);
        d->handed[i] = one_in(chance, 2) ? d->place[i] : below(chance, d->place[i] + 1);
        d->active &= ~(UINT64_C(1) << i);
        if (d->place[i] < d->slots)
            d->local &= ~(UINT64_C(1) << i);
    }
}

static void poke_desk(const struct desk *d)
{
    uint8_t bytes[SLOT_BYTES] = { 0 };
    write32(bytes, d->n);
    write32(bytes + 4, d->slots);
    write32(bytes + 8, d->entries);
    write32(bytes + 12, d->last);
    write64(bytes + 16, d->stable);
    write64(bytes + 24, d->active);
    write64(bytes + 32, d->local);
    play(poke(DESK, 0, bytes, sizeof bytes));
    for (uint32_t i = 0; i < POSITIONS; i += 4) {
        memset(bytes, 0, sizeof bytes);
        for (uint32_t k = 0; k < 4; k++) {
            write32(bytes + 16 * k, d->ticket[i + k]);
            write32(bytes + 16 * k + 4, d->place[i + k]);
            write32(bytes + 16 * k + 8, d->handed[i + k]);
        }
        play(poke(DESK, 64 + 16 * (size_t)i, bytes, sizeof bytes));
    }
}

/* ---- slots and entries of any kind */

static uint64_t draw_mask(struct chance *chance, const struct desk *d)
{
    switch (below(chance, 6)) {
    case 0: return UINT64_MAX;
    case 1: return UINT64_MAX ^ UINT64_C(1) << below(chance, 64);
    case 2: return d->stable;
    case 3: return ~d->stable;
    case 4: return d->n < 64 ? draw(chance) | ~((UINT64_C(1) << d->n) - 1) : draw(chance);
    default: return draw(chance);
    }
}

/* Few numbers, so that some stand twice; an empty slot with junk in it now and then. */
static void poke_slots(struct chance *chance, const struct desk *d, enum buffer into, uint32_t count)
{
    uint32_t full = below(chance, 5);
    for (uint32_t k = 0; k < count; k++) {
        uint8_t slot[SLOT_BYTES] = { 0 };
        bool used = below(chance, 4) < full;
        if (used || one_in(chance, 3)) {
            for (int i = 0; i < SLOT_BYTES; i++)
                slot[i] = (uint8_t)draw(chance);
            write64(slot + 56, draw_mask(chance, d));
        }
        write32(slot, !used ? 0 : one_in(chance, 8) ? UINT32_MAX - below(chance, 2) : between(chance, 1, count + 1));
        play(poke(into, SLOT_BYTES * (size_t)k, slot, sizeof slot));
    }
}

void foreign_store(struct chance *chance, struct desk *d, const char *kind)
{
    d->slots = between(chance, 1, 6);
    d->entries = between(chance, 1, 8);
    draw_desk(chance, d);
    struct shape shape = shape_by(chance, kind, d->slots, d->entries, false);
    play_start(&shape);
    poke_desk(d);
    poke_slots(chance, d, TABLE, d->slots);
    poke_slots(chance, d, SHELF, d->entries);
}

static struct call any_call(struct chance *chance, const struct desk *d)
{
    uint8_t body[BODY_BYTES];
    draw_body(chance, body);
    uint32_t number = one_in(chance, 20) ? 0
                    : one_in(chance, 8) ? UINT32_MAX - below(chance, 2)
                                        : between(chance, 1, d->slots + 1);
    uint32_t ticket = one_in(chance, 4) ? d->last : below(chance, 6);
    uint32_t budget = one_in(chance, 3) ? UNBOUNDED : below(chance, d->slots + d->entries + 2);
    if (one_in(chance, 20))
        body[4] = (uint8_t)draw(chance);
    switch (below(chance, 10)) {
    case 0: return call_insert(number, body);
    case 1: return call_modify(number, body);
    case 2: return call_modify(number, body);
    case 3: return call_delete(number);
    case 4: return call_begin();
    case 5: return call_tally();
    case 6: return call_owed(ticket);
    default: return call_next(ticket, budget);
    }
}

void play_foreign(struct chance *chance)
{
    for (int k = 0; k < 6; k++) {
        struct desk d;
        foreign_store(chance, &d, "sound desk, any bytes");
        for (int i = 0; i < 60; i++)
            play(any_call(chance, &d));
    }
}
