/* Clean histories: a store opened and changed by calls alone, of small and large T, R and N, with every kind of budget. */
#include "sequences.h"

#include <string.h>

/* What a generator knows of its history: the tickets that run, and how often each call comes. */
struct history {
    struct chance *chance;
    uint32_t slots, entries, n, numbers, last;
    uint32_t running[POSITIONS];
    uint32_t run;
    uint32_t weight[OWED + 1], weights;
};

void draw_body(struct chance *chance, uint8_t *body)
{
    uint32_t which = below(chance, 5);
    for (uint32_t i = 0; i < BODY_BYTES; i++)
        body[i] = (uint8_t)(which * 41 + i * (which + 3));
    body[4] = (uint8_t)between(chance, 1, 3);
}

/* One of few numbers, so that calls meet; the largest ones among them. */
static uint32_t draw_number(struct history *h)
{
    uint32_t k = below(h->chance, h->numbers);
    if (one_in(h->chance, 60))
        return 0;
    return k == 0 ? UINT32_MAX : k == 1 ? UINT32_C(0x80000000) : k;
}

/* Mostly a ticket that runs. */
static uint32_t draw_ticket(struct history *h)
{
    if (h->run > 0 && !one_in(h->chance, 12))
        return h->running[below(h->chance, h->run)];
    switch (below(h->chance, 4)) {
    case 0: return 0;
    case 1: return h->last + 1;
    case 2: return UINT32_MAX;
    default: return between(h->chance, 0, h->last);
    }
}

/* 0, 1, small, around T and T + R, huge. */
static uint32_t draw_budget(struct history *h)
{
    uint32_t t = h->slots, whole = t + h->entries;
    switch (below(h->chance, 9)) {
    case 0: return 0;
    case 1: return 1;
    case 2: return between(h->chance, 2, 5);
    case 3: return t - 1 + below(h->chance, 3);
    case 4: return whole - 1 + below(h->chance, 3);
    case 5: return below(h->chance, whole);
    case 6: return UNBOUNDED;
    default: return between(h->chance, 1, 3);
    }
}

/* A length that is not the right one; the lengths near it and those that are right in their low 32 bits among them. */
static void say_wrong_length(struct history *h, struct call *c)
{
    static const size_t lengths[] = { 0, 1, 51, 52, 53, 55, 56, 57, 63, 64, 65, 1087, 1088, 1089,
                                      16385 * SLOT_BYTES, 1048577 * SLOT_BYTES };
    size_t right[BUFFERS] = { DESK_BYTES, SLOT_BYTES * (size_t)h->slots, SLOT_BYTES * (size_t)h->entries,
                              BODY_BYTES, OUT_BYTES };
    enum buffer b = (enum buffer)below(h->chance, BUFFERS);
    size_t len = one_in(h->chance, 4) ? right[b] + ((size_t)1 << 32)
               : one_in(h->chance, 3) ? right[b] + 1 - 2 * below(h->chance, 2)
                                      : lengths[below(h->chance, sizeof lengths / sizeof lengths[0])];
    /* A right length of another store would have to be lent in full. */
    if (len % SLOT_BYTES == 0 && len <= SLOT_BYTES * (size_t)1048576 && (b == TABLE || b == SHELF))
        return;
    c->len[b] = len;
    if (len == 0 && one_in(h->chance, 2))
        c->null = 1u << b;
}

static enum which draw_which(struct history *h)
{
    uint32_t at = below(h->chance, h->weights);
    int which = OPEN;
    while (at >= h->weight[which])
        at -= h->weight[which++];
    return (enum which)which;
}

static struct call draw_call(struct history *h)
{
    uint8_t body[BODY_BYTES];
    draw_body(h->chance, body);
    if (one_in(h->chance, 40)) {
        static const uint8_t kinds[] = { 0, 4, 5, 128, 255 };
        body[4] = kinds[below(h->chance, sizeof kinds)];
    }
    enum which which = draw_which(h);
    uint32_t number = draw_number(h), ticket = draw_ticket(h), budget = draw_budget(h);
    switch (which) {
    case OPEN: return call_open(one_in(h->chance, 2) ? h->n : between(h->chance, 0, 66));
    case INSERT: return call_insert(number, body);
    case MODIFY: return call_modify(number, body);
    case DELETE: return call_delete(number);
    case BEGIN: return call_begin();
    case NEXT: return call_next(ticket, budget);
    case OWED: return call_owed(ticket);
    default: return call_tally();
    }
}

/* Keeps the tickets that run. */
static void note(struct history *h, const struct call *c, uint64_t returned)
{
    if (c->which == OPEN && returned == 0) {
        h->run = h->last = 0;
        h->n = c->number;
    }
    if (c->which == BEGIN && returned % 256 == 0)
        h->running[h->run++] = h->last = (uint32_t)(returned / 256);
    if (c->which == NEXT && returned % 256 == 101)
        for (uint32_t i = 0; i < h->run; i++)
            if (h->running[i] == c->number)
                h->running[i] = h->running[--h->run];
}

static void history(struct chance *chance, const char *kind, uint32_t slots, uint32_t entries, uint32_t n, uint32_t calls)
{
    struct history h = { .chance = chance, .slots = slots, .entries = entries, .n = n, .numbers = slots + slots / 2 + 2 };
    uint32_t most[OWED + 1] = { 1, 30, 30, 15, 12, 60, 4, 6 };
    for (int which = OPEN; which <= OWED; which++) {
        h.weight[which] = which == OPEN ? below(chance, 2) : between(chance, 1, most[which]);
        h.weights += h.weight[which];
    }
    struct shape shape = shape_by(chance, kind, slots, entries, true);
    play_start(&shape);
    play(call_open(n));
    for (uint32_t k = 0; k < calls; k++) {
        struct call c = draw_call(&h);
        if (one_in(chance, 50))
            say_wrong_length(&h, &c);
        note(&h, &c, play(c));
    }
    /* All scans to their end, or as far as they come. */
    for (uint32_t k = 0; k < 4 * calls && h.run > 0; k++) {
        struct call c = call_next(h.running[below(chance, h.run)], UNBOUNDED);
        note(&h, &c, play(c));
    }
    play(call_tally());
}

/* A history of sizes by chance: so many slots at least and at most, entries and positions from 1 to the most. */
static void drawn(struct chance *chance, const char *kind, uint32_t least_slots, uint32_t most_slots, uint32_t most_entries,
                  uint32_t most_n, uint32_t calls)
{
    uint32_t slots = between(chance, least_slots, most_slots);
    uint32_t entries = between(chance, 1, most_entries);
    uint32_t n = between(chance, 1, most_n);
    history(chance, kind, slots, entries, n, calls);
}

void play_history(struct chance *chance)
{
    for (uint32_t k = 0; k < 24; k++)
        drawn(chance, "tiny history", 1, 4, 6, 3, 5 * (k + 1));
    for (int k = 0; k < 4; k++)
        drawn(chance, "small history", 2, 24, 60, 64, 200);
    drawn(chance, "large history", 50, 200, 400, 64, 250);

    /* R = N x T: 8 never comes. */
    uint32_t slots = between(chance, 1, 6), n = between(chance, 1, 4);
    history(chance, "history with room for all", slots, n * slots, n, 200);
}
