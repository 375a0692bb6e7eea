/* All stores of the tiniest sizes: every sound desk with two tickets, every slot and entry empty (zero, or with junk) or
   bearing one of two numbers with every mask below N; and on each of them every call. */
#include "sequences.h"

#include <string.h>

/* One tiny store: each part is one of so many ways. */
struct tiny {
    uint32_t n, slots, entries;
    uint32_t stable;                 /* a mask below N */
    uint32_t card[2];                /* 0 idle; else place and whether all looks handed out, by ticket */
    uint32_t slot[4];                /* the slots, then the entries: 0 and 1 empty; else number and mask */
};

enum { TICKETS = 2, NUMBERS = 2 };

static uint32_t card_ways(const struct tiny *s)
{
    return 1 + TICKETS * 2 * (s->slots + s->entries + 1);
}

static uint32_t slot_ways(const struct tiny *s)
{
    return 2 + NUMBERS * (1u << s->n);
}

static void poke_slot(const struct tiny *s, uint32_t k)
{
    uint8_t bytes[SLOT_BYTES] = { 0 };
    bool in_table = k < s->slots;
    uint32_t way = s->slot[k];
    if (way >= 1)
        memset(bytes, (int)(0x70 + way), sizeof bytes);
    write32(bytes, way < 2 ? 0 : 1 + (way - 2) % NUMBERS);
    if (way >= 2) {
        bytes[8] = 1;
        /* The bits from N up as calls leave them: 0 in a status mask, 1 on the shelf. */
        write64(bytes + 56, (way - 2) / NUMBERS | (in_table ? 0 : UINT64_MAX << s->n));
    }
    play(poke(in_table ? TABLE : SHELF, SLOT_BYTES * (size_t)(in_table ? k : k - s->slots), bytes, sizeof bytes));
}

static void make_store(const struct tiny *s)
{
    struct shape shape = { .kind = "every tiny store", .slots = s->slots, .entries = s->entries };
    uint64_t active = UINT64_MAX, local = UINT64_MAX;
    uint8_t head[SLOT_BYTES] = { 0 };
    play_start(&shape);
    for (uint32_t i = 0; i < s->n; i++) {
        uint8_t card[16] = { 0 };
        if (s->card[i] != 0) {
            uint32_t way = s->card[i] - 1, place = way / (2 * TICKETS);
            write32(card, 1 + way % TICKETS);
            write32(card + 4, place);
            write32(card + 8, way / TICKETS % 2 ? place : 0);
            active &= ~(UINT64_C(1) << i);
            if (place < s->slots)
                local &= ~(UINT64_C(1) << i);
        }
        play(poke(DESK, 64 + 16 * i, card, sizeof card));
    }
    write32(head, s->n);
    write32(head + 4, s->slots);
    write32(head + 8, s->entries);
    write32(head + 12, TICKETS);
    write64(head + 16, s->stable);
    write64(head + 24, active);
    write64(head + 32, local);
    play(poke(DESK, 0, head, sizeof head));
    for (uint32_t k = 0; k < s->slots + s->entries; k++)
        poke_slot(s, k);
}

static void try_calls(const struct tiny *s)
{
    static const uint8_t body[BODY_BYTES] = { 1, 2, 3, 4, 3, 6, 7, 8 };
    struct call calls[32];
    size_t count = 0;
    for (uint32_t number = 1; number <= NUMBERS + 1; number++) {
        calls[count++] = call_insert(number, body);
        calls[count++] = call_modify(number, body);
        calls[count++] = call_delete(number);
    }
    calls[count++] = call_begin();
    calls[count++] = call_tally();
    for (uint32_t ticket = 1; ticket <= TICKETS; ticket++) {
        calls[count++] = call_owed(ticket);
        for (uint32_t budget = 0; budget <= s->slots + s->entries; budget++)
            calls[count++] = call_next(ticket, budget);
    }
    /* What refuses or only reads leaves the store as it was, and the next call meets the same. */
    make_store(s);
    for (size_t k = 0; k < count; k++) {
        uint64_t answer = play(calls[k]) % 256;
        bool changed = calls[k].which != TALLY && calls[k].which != OWED && (answer == 0 || answer > 11);
        if (changed && k + 1 < count)
            make_store(s);
    }
}

/* Counts the parts of the store up like the digits of a number; false when all have been. */
static bool count_up(struct tiny *s)
{
    if (++s->stable < 1u << s->n)
        return true;
    s->stable = 0;
    for (uint32_t i = 0; i < s->n; i++) {
        if (++s->card[i] < card_ways(s))
            return true;
        s->card[i] = 0;
    }
    for (uint32_t k = 0; k < s->slots + s->entries; k++) {
        if (++s->slot[k] < slot_ways(s))
            return true;
        s->slot[k] = 0;
    }
    return false;
}

static void every(uint32_t n, uint32_t slots, uint32_t entries)
{
    struct tiny s = { .n = n, .slots = slots, .entries = entries };
    do
        try_calls(&s);
    while (count_up(&s));
}

void play_every_store(bool next_sizes)
{
    every(1, 1, 1);
    every(1, 2, 1);
    every(1, 1, 2);
    every(2, 1, 1);
    if (next_sizes)
        every(1, 2, 2);
}
