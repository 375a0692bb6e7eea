/* The largest store, T = 16,384 and R = 1,048,576, and lengths one slot beyond. */
#include "sequences.h"

#include <string.h>

enum { MOST_SLOTS = 16384, MOST_ENTRIES = 1048576 };

static const uint8_t body[BODY_BYTES] = { 1, 2, 3, 4, 2, 6, 7, 8 };

/* One slot more than there may be, in memory that is there. */
static void beyond(struct chance *chance)
{
    const uint32_t sizes[][2] = { { MOST_SLOTS + 1, 1 }, { 1, MOST_ENTRIES + 1 } };
    for (int k = 0; k < 2; k++) {
        struct shape shape = shape_by(chance, "beyond the largest store", sizes[k][0], sizes[k][1], false);
        play_start(&shape);
        expect(call_open(1), 1);
        play(poke32(DESK, 0, 1));
        expect(call_tally(), 1);
    }
}

/* Records with the numbers 1 and up in all slots from the first one. */
static struct call records(enum buffer into, uint32_t first, uint32_t count, uint64_t mask)
{
    uint8_t slot[SLOT_BYTES] = { 0 };
    write32(slot, first + 1);
    memcpy(slot + 4, body, BODY_BYTES);
    write64(slot + 56, mask);
    struct call c = poke(into, SLOT_BYTES * (size_t)first, slot, sizeof slot);
    c.repeat = count;
    return c;
}

static uint64_t finished(uint64_t looks, uint64_t handed)
{
    return 101 + 256 * (looks + 2097152 * handed);
}

static void largest(struct chance *chance)
{
    struct shape shape = shape_by(chance, "largest store", MOST_SLOTS, MOST_ENTRIES, false);
    play_start(&shape);
    expect(call_open(64), 0);

    /* A full table but for its last slot, and a scan over it. */
    play(records(TABLE, 0, MOST_SLOTS - 1, 0));
    expect(call_insert(MOST_SLOTS, body), 0);
    expect(call_insert(MOST_SLOTS + 1, body), 7);
    expect(call_begin(), 256);
    expect(call_owed(1), 256 * MOST_SLOTS);
    expect(call_next(1, UNBOUNDED), 256);
    expect(call_modify(MOST_SLOTS, body), 0);
    expect(call_delete(1), 0);

    /* All but the last entry in use by another hand, none for this scan; then full. */
    play(records(SHELF, 1, MOST_ENTRIES - 2, ~UINT64_C(2)));
    expect(call_modify(MOST_SLOTS - 1, body), 0);
    expect(call_modify(MOST_SLOTS - 2, body), 8);
    expect(call_tally(), 256 * (MOST_SLOTS - 1 + 32768 * (uint64_t)MOST_ENTRIES));

    /* A second scan in position 1, whose entries those are. */
    expect(call_begin(), 512);
    expect(call_owed(2), 256 * (uint64_t)(MOST_SLOTS - 1 + MOST_ENTRIES - 2));

    /* The first scan, set at the end of its table walk by the host: two versions on the shelf are left to it. */
    play(poke32(DESK, 64 + 4, MOST_SLOTS - 1));
    expect(call_next(1, 2), 256 * 2);
    expect(call_next(1, MOST_ENTRIES - 2), 100 + 256 * (uint64_t)(MOST_ENTRIES - 2));
    expect(call_next(1, 1), 256);
    play(poke32(DESK, 64 + 8, MOST_SLOTS + MOST_ENTRIES));
    expect(call_next(1, 0), finished(0, MOST_SLOTS + MOST_ENTRIES));

    /* An empty store looked through in one call. */
    expect(call_open(1), 0);
    expect(call_begin(), 256);
    expect(call_next(1, UNBOUNDED), finished(MOST_SLOTS + MOST_ENTRIES, 0));
}

void play_largest(struct chance *chance)
{
    beyond(chance);
    largest(chance);
}
