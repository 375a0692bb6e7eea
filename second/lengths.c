/* Wrong lengths: each buffer of each call, alone and two together, over a sound desk and over one that is not. */
#include "sequences.h"

#include <string.h>

static const uint8_t body[BODY_BYTES] = { 1, 2, 3, 4, 1, 6, 7, 8 };
static const uint8_t bad_kind[BODY_BYTES] = { 0 };

/* Each call as it would be accepted, then as a higher number would refuse it: 1 comes before them all. Begin first: a program that
 * takes a wrong length for a right one then differs before it reads or writes that far. */
static size_t every_call(struct call *calls)
{
    size_t k = 0;
    calls[k++] = call_begin();
    calls[k++] = call_open(3);
    calls[k++] = call_open(0);
    calls[k++] = call_insert(9, body);
    calls[k++] = call_insert(0, body);
    calls[k++] = call_insert(9, bad_kind);
    calls[k++] = call_insert(7, body);
    calls[k++] = call_modify(7, body);
    calls[k++] = call_modify(0, bad_kind);
    calls[k++] = call_modify(9, body);
    calls[k++] = call_delete(7);
    calls[k++] = call_delete(9);
    calls[k++] = call_next(1, 0);
    calls[k++] = call_next(1, UNBOUNDED);
    calls[k++] = call_next(0, 1);
    calls[k++] = call_tally();
    calls[k++] = call_owed(1);
    calls[k++] = call_owed(5);
    return k;
}

/* Whether a call is lent the buffer. */
static bool takes(const struct call *c, enum buffer b)
{
    return b < BODY || (b == BODY && (c->which == INSERT || c->which == MODIFY)) || (b == OUT && c->which == NEXT);
}

static void wrong_lengths(struct chance *chance, bool sound)
{
    const uint32_t slots = 3, entries = 5;
    static const size_t small[] = { 0, 1, 32, 51, 53, 55, 57, 63, 65, 127, 191, 193, 319, 321, 1087, 1089 };
    const size_t right[BUFFERS] = { DESK_BYTES, SLOT_BYTES * slots, SLOT_BYTES * entries, BODY_BYTES, OUT_BYTES };
    struct call calls[32];
    size_t count = every_call(calls);
    struct shape shape = shape_by(chance, "wrong lengths", slots, entries, false);
    play_start(&shape);
    expect(call_open(2), 0);
    expect(call_insert(7, body), 0);
    expect(call_begin(), 256);
    if (!sound)
        play(poke32(DESK, 40, 1));
    for (size_t k = 0; k < count; k++)
        for (int b = 0; b < BUFFERS; b++) {
            if (!takes(&calls[k], (enum buffer)b))
                continue;
            size_t lengths[24], n = 0;
            for (size_t i = 0; i < sizeof small / sizeof small[0]; i++)
                lengths[n++] = small[i];
            /* Right in their low 32 bits only; too many slots by one; another buffer's size. */
            lengths[n++] = right[b] + ((size_t)1 << 32);
            lengths[n++] = right[b] + ((size_t)1 << 38);
            lengths[n++] = b == TABLE ? 16385 * 64 : b == SHELF ? (size_t)1048577 * 64 : 64;
            lengths[n++] = b == BODY ? OUT_BYTES : b == OUT ? BODY_BYTES : right[b] - 1;
            for (size_t i = 0; i < n; i++) {
                struct call c = calls[k];
                c.len[b] = lengths[i];
                expect(c, 1);
                if (lengths[i] != 0)
                    continue;
                c.null = 1u << b;
                expect(c, 1);
            }
        }
    /* Nothing lent at all. */
    for (size_t k = 0; k < count; k++) {
        struct call c = calls[k];
        for (int b = 0; b < BUFFERS; b++)
            c.len[b] = 0;
        c.null = (1u << BUFFERS) - 1;
        expect(c, 1);
    }
}

/* Fewer slots than the desk says, in whole: 2, and from open a smaller store. */
static void smaller(struct chance *chance)
{
    struct call calls[32];
    size_t count = every_call(calls);
    for (size_t k = 0; k < count; k++)
        for (int b = TABLE; b <= SHELF; b++) {
            struct shape shape = shape_by(chance, "fewer slots than at the opening", 3, 5, false);
            play_start(&shape);
            expect(call_open(2), 0);
            expect(call_insert(7, body), 0);
            expect(call_begin(), 256);
            struct call c = calls[k];
            c.len[b] = 2 * SLOT_BYTES;
            if (c.which == OPEN)
                play(c);
            else
                expect(c, 2);
            play(call_tally());
        }
}

void play_lengths(struct chance *chance)
{
    wrong_lengths(chance, true);
    wrong_lengths(chance, false);
    smaller(chance);
}
