/* calls ROUNDS [PAGE]: what each call costs in the library and in fast.c. Both work on the same bytes, turn by turn, in
   ROUNDS rounds over all cases; the least is kept, and what a turn costs with calls that do nothing is taken off. Every
   answer is tested.
   Written: call;scans;T;R;unit;library;fast;reads, where reads is a loop that reads one word of each slot and entry that the call
   has to look at, and does nothing else. */
#define _POSIX_C_SOURCE 200809L
#include "clock.h"
#include "side.h"
#include "work.h"

#include <stdbool.h>
#include <stdio.h>
#include <stdlib.h>
#include <string.h>

enum { DESK = 1088, SLOT = 64, OUT = 56, CARDS = 64, CARD = 16, MOST = 64, PAGE = 4096, VERSIONS = 64 };
enum { NEW_NUMBER = 1000000, NEVER_GIVEN = 4000000000u, LEAST_TURN = 20000, TURNS = 8 };

static const uint64_t ALL_ONES = UINT64_MAX;

/* The store of the present case. Records have the numbers 1 to T, in slots 0 to T - 1. */
static uint8_t *desk, *table, *shelf;
static uint32_t t, r, scans;
#define STORE desk, DESK, table, (size_t)t * SLOT, shelf, (size_t)r * SLOT

static uint8_t body[BODY] = { 1, 2, 3, 4, 1 }, out[OUT];

void fail(const char *who, const char *what)
{
    fprintf(stderr, "calls: %s: %s\n", who, what);
    exit(1);
}

/* ---- bytes; the emulated processor is little-endian, and so is each that the archive runs on */

static void put32(uint8_t *to, uint32_t value) { memcpy(to, &value, sizeof value); }
static void put64(uint8_t *to, uint64_t value) { memcpy(to, &value, sizeof value); }

static uint8_t *slot_at(uint32_t k) { return table + (size_t)k * SLOT; }
static uint8_t *entry_at(uint32_t k) { return shelf + (size_t)k * SLOT; }
static uint8_t *card_at(uint32_t position) { return desk + CARDS + CARD * position; }

static void put_record(uint8_t *at, uint32_t number, uint64_t mask)
{
    put32(at, number);
    memcpy(at + 4, body, BODY);
    put64(at + 56, mask);
}

/* A card, and the three masks in the head. */
static void put_card(uint32_t position, uint32_t ticket, uint32_t place)
{
    put64(card_at(position), ticket | (uint64_t)place << 32);
    put64(card_at(position) + 8, 0);
}

static void put_masks(uint64_t stable, uint64_t active, uint64_t local)
{
    put64(desk + 16, stable);
    put64(desk + 24, active);
    put64(desk + 32, local);
}

/* Positions 0 to the number of scans are busy. */
static uint64_t busy(void)
{
    return scans == MOST ? ALL_ONES : (UINT64_C(1) << scans) - 1;
}

/* ---- the cases: each makes so many calls, puts back what they changed, and counts wrong answers */

static uint32_t aimed;      /* the slot that a change is of, and the entry where its version goes */
static uint8_t *entry;

static uint64_t refused(const struct side *side, uint32_t times)
{
    uint64_t wrong = 0;
    for (uint32_t i = 0; i < times; i++)
        wrong += side->next(STORE, NEVER_GIVEN, 1, out, OUT) != 10;
    return wrong;
}

static uint64_t inserts(const struct side *side, uint32_t times)
{
    uint64_t wrong = 0;
    for (uint32_t i = 0; i < times; i++) {
        wrong += side->insert(STORE, NEW_NUMBER, body, BODY) != 0;
        put32(slot_at(aimed), 0);
    }
    return wrong;
}

static uint64_t modifies(const struct side *side, uint32_t times)
{
    uint64_t wrong = 0;
    for (uint32_t i = 0; i < times; i++) {
        wrong += side->modify(STORE, aimed + 1, body, BODY) != 0;
        put64(slot_at(aimed) + 56, 0);
        put32(entry, 0);
    }
    return wrong;
}

static uint64_t deletes(const struct side *side, uint32_t times)
{
    uint64_t wrong = 0;
    for (uint32_t i = 0; i < times; i++) {
        wrong += side->delete(STORE, aimed + 1) != 0;
        put_record(slot_at(aimed), aimed + 1, 0);
        put32(entry, 0);
    }
    return wrong;
}

static uint64_t begins(const struct side *side, uint32_t times)
{
    uint64_t wrong = 0;
    for (uint32_t i = 0; i < times; i++) {
        wrong += side->begin(STORE) != 256 * (uint64_t)(scans + 1);
        put32(desk + 12, scans);
        put_masks(0, ~busy(), ~busy());
        put_card(scans, 0, 0);
    }
    return wrong;
}

/* A record in hand at the first look. From time to time the scan, the one begun last, is put back to its first slot, as
   long as it has not come to the last. */
static uint64_t records(const struct side *side, uint32_t times)
{
    uint64_t wrong = 0;
    for (uint32_t i = 0; i < times; i += VERSIONS - 1) {
        for (uint32_t k = 0; k < VERSIONS - 1; k++)
            wrong += side->next(STORE, scans, 1000, out, OUT) != 256;
        for (uint32_t k = 0; k < VERSIONS - 1; k++)
            put64(slot_at(k) + 56, 0);
        put_card(scans - 1, scans, 0);
    }
    return wrong;
}

/* The same on the shelf: each version is awaited by the first scan alone, so that its entry is freed. */
static uint64_t versions(const struct side *side, uint32_t times)
{
    uint64_t wrong = 0;
    for (uint32_t i = 0; i < times; i += VERSIONS) {
        for (uint32_t k = 0; k < VERSIONS; k++)
            wrong += side->next(STORE, 1, 1000, out, OUT) != 256;
        for (uint32_t k = 0; k < VERSIONS; k++) {
            put32(entry_at(k), k + 1);
            put64(entry_at(k) + 56, ~UINT64_C(1));
        }
        put_card(0, 1, t);
    }
    return wrong;
}

/* From the first look to the last of an empty store. */
static uint64_t walks(const struct side *side, uint32_t times)
{
    uint64_t wrong = 0;
    for (uint32_t i = 0; i < times; i++) {
        wrong += side->next(STORE, 1, UINT32_MAX, out, OUT) != 101 + 256 * (uint64_t)(t + r);
        put_masks(0, ~busy(), ~busy());
        put_card(0, 1, 0);
    }
    return wrong;
}

static uint64_t tallies(const struct side *side, uint32_t times)
{
    uint64_t wrong = 0;
    for (uint32_t i = 0; i < times; i++)
        wrong += side->tally(STORE) != 256 * (uint64_t)t;
    return wrong;
}

static uint64_t oweds(const struct side *side, uint32_t times)
{
    uint64_t wrong = 0;
    for (uint32_t i = 0; i < times; i++)
        wrong += side->owed(STORE, 1) != 256 * (uint64_t)t;
    return wrong;
}

enum of { NONE, FIRST, MIDDLE, LAST, ALL };

static const struct {
    const char *name;
    uint64_t (*calls)(const struct side *side, uint32_t times);
    uint32_t group;                  /* calls come in such groups */
    enum of slot;                    /* what is changed; ALL: every slot is looked at */
    enum of entry;                   /* where a version goes; ALL: every entry is looked at */
    enum of full;                    /* slots in use: ALL, or all but the LAST, or NONE */
    uint32_t scans[4];               /* how many run, in one case after another, up to the number in at_once */
    uint32_t at_once;
} cases[] = {
    { "next, refused: no such ticket", refused, 1, NONE, NONE, ALL, { 0, 1, 8, 64 }, 4 },
    { "begin", begins, 1, NONE, NONE, ALL, { 0, 1, 8, 63 }, 4 },
    { "modify, first slot", modifies, 1, FIRST, FIRST, ALL, { 0, 1, 64 }, 3 },
    { "modify, middle slot", modifies, 1, MIDDLE, FIRST, ALL, { 0, 1, 64 }, 3 },
    { "modify, last slot", modifies, 1, LAST, FIRST, ALL, { 0, 1, 64 }, 3 },
    { "delete, last slot", deletes, 1, LAST, FIRST, ALL, { 0, 1, 64 }, 3 },
    { "insert, last slot", inserts, 1, LAST, NONE, LAST, { 0, 64 }, 2 },
    { "next, a record", records, VERSIONS - 1, FIRST, NONE, ALL, { 1, 8, 64 }, 3 },
    { "next, a version from the shelf", versions, VERSIONS, NONE, FIRST, ALL, { 1, 8, 64 }, 3 },
    { "next, an empty store to its end", walks, 1, ALL, ALL, NONE, { 1, 64 }, 2 },
    { "tally, a full table", tallies, 1, ALL, ALL, ALL, { 0, 64 }, 2 },
    { "owed, a full table", oweds, 1, ALL, ALL, ALL, { 1, 64 }, 2 },
    { "modify, first slot, last entry", modifies, 1, FIRST, LAST, ALL, { 1, 64 }, 2 },
};
enum { CASES = sizeof cases / sizeof cases[0] };

/* The store that the case's calls meet. */
static void prepare(int c)
{
    uint32_t full = cases[c].full == ALL ? t : cases[c].full == LAST ? t - 1 : 0;
    if (fast_calls.open(STORE, MOST) != 0)
        fail(cases[c].name, "open");
    for (uint32_t k = 0; k < full; k++)
        put_record(slot_at(k), k + 1, 0);
    for (uint32_t k = 0; k < scans; k++)
        if (fast_calls.begin(STORE) != 256 * (uint64_t)(k + 1))
            fail(cases[c].name, "begin");
    aimed = cases[c].slot == MIDDLE ? t / 2 : cases[c].slot == LAST ? t - 1 : 0;
    entry = entry_at(cases[c].entry == LAST ? r - 1 : 0);
    for (uint32_t k = 0; cases[c].entry == LAST && k + 1 < r; k++)
        put_record(entry_at(k), k + 1, ~UINT64_C(1));
    if (cases[c].calls != versions)
        return;
    for (uint32_t k = 0; k < VERSIONS; k++)
        put_record(entry_at(k), k + 1, ~UINT64_C(1));
    put_card(0, 1, t);
    put_masks(1, ~busy(), ~busy() | 1);
}

/* ---- a loop that only reads */

static uint32_t slots_read, entries_read;

static uint32_t word_of(const uint8_t *slot)
{
    uint32_t word;
    memcpy(&word, slot, sizeof word);
    return word;
}

static uint32_t one_word_of_each(const uint8_t *slots, uint32_t count)
{
    uint32_t even = 0, odd = 0, k = 0;
    for (; k + 4 <= count; k += 4, slots += 4 * SLOT) {
        __builtin_prefetch(slots + 32 * SLOT);
        even |= word_of(slots) | word_of(slots + 2 * SLOT);
        odd |= word_of(slots + SLOT) | word_of(slots + 3 * SLOT);
    }
    for (; k < count; k++, slots += SLOT)
        even |= word_of(slots);
    return even | odd;
}

static volatile uint32_t read_last;

static void reads(uint32_t times)
{
    for (uint32_t i = 0; i < times; i++)
        read_last = one_word_of_each(table, slots_read) | one_word_of_each(shelf, entries_read);
}

static void looks_of(int c)
{
    enum of slot = cases[c].slot, last = cases[c].entry;
    bool shelved = last != NONE && (scans > 0 || last == ALL);
    slots_read = slot == NONE ? 0 : slot == FIRST ? 1 : slot == MIDDLE ? t / 2 + 1 : t;
    entries_read = !shelved ? 0 : last == FIRST ? 1 : r;
}

/* ---- measuring */

enum { NOTHING, LIBRARY, FAST, READS, MEASURED };

static double turn(int c, int which, uint32_t times)
{
    static const struct side *const sides[] = { &no_calls, &library_calls, &fast_calls };
    uint64_t from = clock_now(), wrong = 0;
    if (which == READS)
        reads(times);
    else
        wrong = cases[c].calls(sides[which], times);
    uint64_t to = clock_now();
    if (which != NOTHING && wrong != 0)
        fail(cases[c].name, "a wrong answer");
    return (double)(to - from) / times;
}

/* As many calls as take LEAST_TURN of nanoseconds; of instructions one group, whose count is always the same. */
static uint32_t calibrated(int c)
{
    uint32_t times = cases[c].group;
    if (!clock_counts())
        while (turn(c, FAST, times) * times < LEAST_TURN)
            times *= 2;
    return times;
}

static void measure(int c, bool first, double *least)
{
    prepare(c);
    looks_of(c);
    uint32_t times = calibrated(c);
    for (int k = 0; k < (clock_counts() ? 1 : TURNS); k++)
        for (int which = 0; which < MEASURED; which++) {
            double cost = turn(c, which, times);
            if ((first && k == 0) || cost < least[which])
                least[which] = cost;
        }
}

static void print(int c, const double *least)
{
    looks_of(c);
    printf("%s;%u;%u;%u;%s;%.1f;%.1f;%.1f\n", cases[c].name, scans, t, r, clock_unit(), least[LIBRARY] - least[NOTHING],
           least[FAST] - least[NOTHING], slots_read + entries_read == 0 ? 0 : least[READS]);
}

int main(int argc, char **argv)
{
    static const uint32_t sizes[][2] = { { 64, 64 }, { 1024, 1024 }, { 16384, 16384 }, { 16384, 1048576 } };
    enum { SIZES = sizeof sizes / sizeof sizes[0] };
    static double least[SIZES][CASES][4][MEASURED];
    void *memory[3];
    if (argc < 2)
        fail("usage", "calls ROUNDS [PAGE]");
    int rounds = atoi(argv[1]);
    clock_from(argc > 2 ? argv[2] : NULL);
    if (posix_memalign(&memory[0], PAGE, PAGE) != 0
        || posix_memalign(&memory[1], PAGE, (size_t)sizes[SIZES - 1][0] * SLOT) != 0
        || posix_memalign(&memory[2], PAGE, (size_t)sizes[SIZES - 1][1] * SLOT) != 0)
        fail("memory", "none");
    desk = memory[0];
    table = memory[1];
    shelf = memory[2];
    /* In the round after the last all is written. */
    for (int round = 0; round <= rounds; round++)
        for (int s = 0; s < SIZES; s++)
            for (int c = 0; c < CASES; c++)
                for (uint32_t k = 0; k < cases[c].at_once; k++) {
                    t = sizes[s][0];
                    r = sizes[s][1];
                    scans = cases[c].scans[k];
                    if (round < rounds)
                        measure(c, round == 0, least[s][c][k]);
                    else
                        print(c, least[s][c][k]);
                }
    return 0;
}
