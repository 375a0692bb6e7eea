/* "Sessions worked through": the session and the edges, each number as document 01 gives it. */
#include "sequences.h"

#include <string.h>

static const uint8_t *body(char letter)
{
    static uint8_t bytes[BODY_BYTES];
    for (int i = 0; i < BODY_BYTES; i++)
        bytes[i] = (uint8_t)(letter + i);
    bytes[4] = 1;
    return bytes;
}

static void open_small(const char *kind, uint32_t n, uint32_t slots, uint32_t entries)
{
    struct shape shape = { .kind = kind, .slots = slots, .entries = entries, .fill = 0x5A, .clean = true };
    play_start(&shape);
    expect(call_open(n), 0);
}

/* The number that comes back for a ticket, for looks, and for the end of a scan. */
static uint64_t given(uint64_t ticket) { return 256 * ticket; }
static uint64_t in_hand(uint64_t looks) { return 256 * looks; }
static uint64_t paused(uint64_t looks) { return 100 + 256 * looks; }
static uint64_t finished(uint64_t looks, uint64_t handed) { return 101 + 256 * (looks + 2097152 * handed); }
static uint64_t counted(uint64_t records, uint64_t entries) { return 256 * (records + 32768 * entries); }

/* "Own session, N = 2, T = 4, R = 8." B' is b, B'' is x. */
static void worked(void)
{
    open_small("worked session", 2, 4, 8);
    expect(call_insert(11, body('A')), 0);
    expect(call_insert(12, body('B')), 0);
    expect(call_insert(13, body('C')), 0);
    expect(call_begin(), given(1));
    expect(call_next(1, 1), in_hand(1));
    expect(call_modify(12, body('b')), 0);
    expect(call_begin(), given(2));
    expect(call_modify(12, body('x')), 0);
    expect(call_delete(13), 0);
    expect(call_tally(), counted(2, 3));
    expect(call_insert(14, body('D')), 0);
    expect(call_owed(1), 256 * 2);
    expect(call_owed(2), 256 * 3);
    expect(call_next(1, 100), in_hand(4));
    expect(call_next(1, 100), in_hand(2));
    expect(call_next(1, 100), UINT64_C(1610614117));
    expect(call_next(1, 100), 10);
    expect(call_next(2, 100), in_hand(1));
    expect(call_next(2, 100), in_hand(5));
    expect(call_next(2, 100), in_hand(1));
    expect(call_tally(), counted(3, 0));
    expect(call_next(2, 100), finished(5, 3));
    expect(call_begin(), given(3));
    expect(call_next(3, 100), in_hand(1));
    expect(call_next(3, 100), in_hand(1));
    expect(call_next(3, 100), in_hand(1));
    expect(call_next(3, 100), finished(9, 3));
}

/* "At the edges" */
static void edges(void)
{
    open_small("edge: an empty table", 1, 1, 1);
    expect(call_begin(), given(1));
    expect(call_insert(7, body('A')), 0);
    expect(call_next(1, UNBOUNDED), finished(2, 0));

    open_small("edge: budget 0 at the end", 1, 2, 3);
    expect(call_begin(), given(1));
    expect(call_next(1, 4), paused(4));
    expect(call_next(1, 0), paused(0));
    expect(call_next(1, 1), finished(1, 0));
    expect(call_begin(), given(2));
    expect(call_insert(7, body('A')), 0);
    expect(call_next(2, 4), paused(4));
    expect(call_next(2, 5), finished(1, 0));

    /* The record on the very last look is in hand; the end follows with no budget. */
    open_small("edge: a record on the last look", 1, 1, 1);
    expect(call_insert(7, body('A')), 0);
    expect(call_begin(), given(1));
    expect(call_modify(7, body('B')), 0);
    expect(call_next(1, 1), paused(1));
    expect(call_next(1, 1), in_hand(1));
    expect(call_next(1, 0), finished(0, 1));

    open_small("edge: a shelf of one", 1, 2, 1);
    expect(call_insert(1, body('A')), 0);
    expect(call_insert(2, body('B')), 0);
    expect(call_begin(), given(1));
    expect(call_modify(1, body('a')), 0);
    expect(call_modify(2, body('b')), 8);
    expect(call_delete(2), 8);
    expect(call_modify(1, body('c')), 0);
    expect(call_delete(1), 0);

    open_small("edge: positions", 64, 1, 1);
    for (uint32_t ticket = 1; ticket <= 64; ticket++)
        expect(call_begin(), given(ticket));
    expect(call_begin(), 9);
    expect(call_next(33, UNBOUNDED), finished(2, 0));
    expect(call_begin(), given(65));

    /* The host sets the last ticket itself: 11 comes only where a position is free. */
    struct shape spent = { .kind = "edge: the last ticket", .slots = 1, .entries = 1 };
    play_start(&spent);
    expect(call_open(2), 0);
    play(poke32(DESK, 12, UINT32_MAX - 1));
    expect(call_begin(), given(UINT32_MAX));
    expect(call_begin(), 11);
    expect(call_owed(UINT32_MAX), 0);
    play(poke32(DESK, 12, UINT32_MAX - 2));
    expect(call_begin(), 2);
    play(poke32(DESK, 12, UINT32_MAX - 1));
    expect(call_begin(), 2);
    expect(call_next(UINT32_MAX, 1), 2);
}

/* N from 1 to 64, and the two beside them. */
static void openings(void)
{
    for (uint32_t n = 1; n <= 64; n++) {
        open_small("openings", n, 1, 1);
        expect(call_tally(), 0);
    }
    expect(call_open(0), 3);
    expect(call_open(65), 3);
    expect(call_open(256), 3);
    expect(call_open(UINT32_MAX), 3);
    expect(call_begin(), given(1));
}

void play_session(void)
{
    worked();
    edges();
    openings();
}
