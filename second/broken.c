/* Every soundness rule broken alone and at its boundary, and kept there: the calls answer 2, or as on any sound desk. */
#include "foreign.h"
#include "sequences.h"

struct breaking {
    struct chance *chance;
    struct chance store;    /* makes the same store again */
    struct desk d;
    uint32_t turn;
};

/* Some of all calls, others each time; with arguments that are right as far as may be, or that higher numbers refuse. */
static void try_calls(struct breaking *b)
{
    static const uint8_t body[BODY_BYTES] = { 9, 9, 9, 9, 2, 9 };
    static const uint8_t bad_kind[BODY_BYTES] = { 9, 9, 9, 9, 4, 9 };
    struct call calls[] = {
        call_tally(), call_owed(1), call_next(1, 1), call_modify(1, body), call_begin(), call_insert(200, body),
        call_delete(1), call_next(b->d.last, UNBOUNDED), call_insert(0, bad_kind), call_modify(200, body),
        call_owed(0), call_delete(0), call_next(0, 0)
    };
    for (int k = 0; k < 4; k++)
        play(calls[b->turn++ % (sizeof calls / sizeof calls[0])]);
}

/* The store made again, one number or byte written over, or two that go together, and calls tried. */
static void broken_both(struct breaking *b, struct call first, struct call write)
{
    struct chance again = b->store;
    foreign_store(&again, &b->d, "a rule of soundness broken");
    play(first);
    play(write);
    try_calls(b);
}

static void broken(struct breaking *b, struct call write)
{
    broken_both(b, write, write);
}

static void break_head(struct breaking *b)
{
    const struct desk *d = &b->d;
    static const uint32_t ns[] = { 0, 1, 64, 65, 256, 0x10001, UINT32_MAX };
    for (size_t i = 0; i < sizeof ns / sizeof ns[0]; i++)
        broken(b, poke32(DESK, 0, ns[i]));
    broken(b, poke32(DESK, 0, d->n + 1));
    broken(b, poke32(DESK, 0, d->n - 1));
    const uint32_t sizes[] = { d->slots, d->entries };
    for (size_t i = 0; i < 2; i++) {
        broken(b, poke32(DESK, 4 + 4 * i, 0));
        broken(b, poke32(DESK, 4 + 4 * i, sizes[i] - 1));
        broken(b, poke32(DESK, 4 + 4 * i, sizes[i] + 1));
        broken(b, poke32(DESK, 4 + 4 * i, sizes[i] + 0x10000));
        broken(b, poke32(DESK, 4 + 4 * i, sizes[i] + 0x1000000));
    }
    broken(b, poke32(DESK, 12, d->last - 1));
    for (size_t at = 40; at < 64; at++) {
        uint8_t byte = (uint8_t)(one_in(b->chance, 2) ? 1 : 128);
        broken(b, poke(DESK, at, &byte, 1));
    }
}

/* Bits of the masks from N up, each alone; with a card that would be right there. */
static void break_high_bits(struct breaking *b)
{
    const struct desk *d = &b->d;
    for (uint32_t i = d->n; i < POSITIONS; i += i == d->n || i > 61 ? 1 : between(b->chance, 1, 20)) {
        uint64_t bit = UINT64_C(1) << i;
        uint32_t card[4] = { d->last, d->slots, 0, 0 };
        uint8_t bytes[16];
        for (int w = 0; w < 4; w++)
            write32(bytes + 4 * w, card[w]);
        broken(b, poke64(DESK, 16, d->stable | bit));
        broken(b, poke64(DESK, 24, d->active & ~bit));
        broken(b, poke64(DESK, 32, d->local & ~bit));
        broken(b, poke(DESK, 64 + 16 * i, bytes, sizeof bytes));
        broken_both(b, poke(DESK, 64 + 16 * i, bytes, sizeof bytes), poke64(DESK, 24, d->active & ~bit));
    }
}

static void break_card(struct breaking *b, uint32_t i)
{
    const struct desk *d = &b->d;
    size_t at = 64 + 16 * (size_t)i;
    uint64_t bit = UINT64_C(1) << i;
    uint32_t whole = d->slots + d->entries;
    broken(b, poke64(DESK, 24, d->active ^ bit));
    broken(b, poke64(DESK, 32, d->local ^ bit));
    broken(b, poke32(DESK, at, d->ticket[i] == 0 ? 1 : 0));
    for (size_t byte = 12; byte < 16; byte++) {
        uint8_t one = 1;
        broken(b, poke(DESK, at + byte, &one, 1));
    }
    if (d->ticket[i] == 0) {
        for (size_t byte = 4; byte < 12; byte++) {
            uint8_t one = 1;
            broken(b, poke(DESK, at + byte, &one, 1));
        }
        return;
    }
    broken(b, poke32(DESK, at, d->last));
    broken(b, poke32(DESK, at, d->last + 1));
    broken(b, poke32(DESK, at, UINT32_MAX));
    broken(b, poke32(DESK, at + 8, d->place[i]));
    broken(b, poke32(DESK, at + 8, d->place[i] + 1));
    broken(b, poke32(DESK, at + 8, UINT32_MAX));
    /* Places at their bounds, with none handed out: the right local active bit, and the wrong one. */
    uint32_t places[] = { 0, d->slots - 1, d->slots, whole, whole + 1, whole + 0x10000, UINT32_MAX };
    for (size_t k = 0; k < sizeof places / sizeof places[0]; k++) {
        uint8_t words[8];
        write32(words, places[k]);
        write32(words + 4, 0);
        broken_both(b, poke64(DESK, 32, d->local | bit), poke(DESK, at + 4, words, 8));
        broken_both(b, poke64(DESK, 32, d->local & ~bit), poke(DESK, at + 4, words, 8));
    }
}

/* A fresh desk with another N: no rule is broken but that one. */
static void fresh_with(struct breaking *b, uint32_t n)
{
    struct shape shape = shape_by(b->chance, "a fresh desk with another N", 2, 2, false);
    play_start(&shape);
    play(call_open(2));
    play(poke32(DESK, 0, n));
    for (int k = 0; k < 4; k++)
        try_calls(b);
}

/* A desk of any bytes; then with N, T and R right. */
static void any_desk(struct breaking *b)
{
    struct shape shape = shape_by(b->chance, "a desk of any bytes", 2, 2, false);
    play_start(&shape);
    for (size_t at = 0; at < DESK_BYTES; at += SLOT_BYTES) {
        uint8_t bytes[SLOT_BYTES];
        for (int i = 0; i < SLOT_BYTES; i++)
            bytes[i] = (uint8_t)draw(b->chance);
        play(poke(DESK, at, bytes, sizeof bytes));
    }
    try_calls(b);
    play(poke32(DESK, 0, 1));
    play(poke32(DESK, 4, 2));
    play(poke32(DESK, 8, 2));
    try_calls(b);
}

void play_broken_desks(struct chance *chance)
{
    struct breaking b = { .chance = chance };
    b.store.state = draw(chance);
    b.turn = below(chance, 13);
    struct chance again = b.store;
    foreign_store(&again, &b.d, "a rule of soundness kept");
    try_calls(&b);
    break_head(&b);
    break_high_bits(&b);
    break_card(&b, 0);
    break_card(&b, b.d.n - 1);
    for (int k = 0; k < 3; k++)
        break_card(&b, below(chance, b.d.n));
    for (int k = 0; k < 40; k++) {
        uint8_t byte = (uint8_t)(1 << below(chance, 8));
        broken(&b, poke(DESK, below(chance, DESK_BYTES), &byte, 1));
    }
    fresh_with(&b, 0);
    fresh_with(&b, 1);
    fresh_with(&b, 64);
    fresh_with(&b, 65);
    fresh_with(&b, UINT32_MAX);
    any_desk(&b);
}
