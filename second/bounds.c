/* The header's functions at their bounds, each held to what the second program takes, or to document 01's own numbers. */
#include <inttypes.h>
#include <stdio.h>
#include <stdlib.h>
#include <string.h>

#include "readings.h"
#include "sequences.h"
#include "store.h"

#define COUNT(list) (sizeof(list) / sizeof(list)[0])

static void must(const char *what, uint64_t header, uint64_t want)
{
    readings_compared++;
    if (header == want)
        return;
    printf("the header: %s: %" PRIu64 ", and it is %" PRIu64 "\n", what, header, want);
    exit(1);
}

/* ---- sizes */

static const uint64_t counts[] = {
    0, 1, 2, 63, 64, 65, 16383, 16384, 16385, 1048575, 1048576, 1048577, UINT32_MAX, UINT64_C(1) << 32,
    (UINT64_C(1) << 32) + 1, (UINT64_C(1) << 58) - 1, UINT64_C(1) << 58, (UINT64_C(1) << 58) + 1, UINT64_MAX
};

/* Room for the largest store; no byte of it is read or written. */
static uint8_t memory[INARUMPIT_STORE_BYTES(16384, 1048576)];

/* Whether the second program takes these buffers. It answers 1 to a wrong length before it answers 3 to N = 0. */
static bool taken(const struct inarumpit_store *store)
{
    return second_open(store->desk, store->desk_len, store->table, store->table_len, store->shelf, store->shelf_len, 0) == 3;
}

/* Whether it takes so many slots and entries. */
static bool in_range(uint64_t slots, uint64_t entries)
{
    struct inarumpit_store store;
    store.desk = store.table = store.shelf = memory;
    store.desk_len = DESK_BYTES;
    store.table_len = SLOT_BYTES * slots;
    store.shelf_len = SLOT_BYTES * entries;
    return slots <= UINT64_MAX / SLOT_BYTES && entries <= UINT64_MAX / SLOT_BYTES && taken(&store);
}

/* Whether it opens a store for so many scans. */
static bool opens_for(uint64_t n)
{
    uint8_t desk[DESK_BYTES], table[SLOT_BYTES], shelf[SLOT_BYTES];
    return n <= UINT32_MAX
        && second_open(desk, sizeof desk, table, sizeof table, shelf, sizeof shelf, (uint32_t)n) == 0;
}

static void sizes(void)
{
    for (size_t i = 0; i < COUNT(counts); i++) {
        uint64_t c = counts[i];
        must("the bytes of a table", inarumpit_table_bytes(c), in_range(c, 1) ? SLOT_BYTES * c : 0);
        must("the bytes of a shelf", inarumpit_shelf_bytes(c), in_range(1, c) ? SLOT_BYTES * c : 0);
    }
    for (size_t i = 0; i < COUNT(counts); i++)
        for (size_t k = 0; k < COUNT(counts); k++) {
            uint64_t n = counts[i], t = counts[k];
            must("the shelf that always suffices", inarumpit_shelf_enough(n, t),
                 opens_for(n) && in_range(t, 1) && in_range(t, n * t) ? n * t : 0);
        }
}

/* A store in one piece of memory: taken by the second program exactly where it takes the counts and the memory is there. */
static void in_one_piece(uint64_t t, uint64_t r)
{
    bool right = in_range(t, r);
    size_t bytes = inarumpit_store_bytes(t, r);
    must("the bytes of a store", bytes, right ? DESK_BYTES + SLOT_BYTES * (t + r) : 0);
    uint8_t *const pieces[] = { memory, memory, memory, NULL };
    const size_t lengths[] = { bytes, sizeof memory, bytes - (bytes > 0), bytes };
    for (size_t i = 0; i < COUNT(pieces); i++) {
        struct inarumpit_store store = inarumpit_store_in(pieces[i], lengths[i], t, r);
        bool fits = right && i < 2;
        must("whether a store in one piece has memory", store.desk != NULL, fits);
        must("the bytes of its buffers", store.desk_len + store.table_len + store.shelf_len, fits ? bytes : 0);
        must("whether it is taken", taken(&store), fits);
        must("overlaps of a store in one piece", (uint64_t)inarumpit_store_overlaps(&store, NULL, 0), 0);
        must("where its desk is", fits ? (uint64_t)(store.desk - memory) : 0, 0);
        must("where its table ends", fits ? (uint64_t)(store.table - memory) + store.table_len : 0,
             fits ? DESK_BYTES + SLOT_BYTES * t : 0);
        must("where its shelf ends", fits ? (uint64_t)(store.shelf - memory) + store.shelf_len : 0, fits ? bytes : 0);
    }
}

static void pieces(void)
{
    for (size_t i = 0; i < COUNT(counts); i++)
        for (size_t k = 0; k < COUNT(counts); k++)
            in_one_piece(counts[i], counts[k]);
}

/* ---- names and their numbers */

static void names(void)
{
    static const uint64_t answers[][2] = {
        { INARUMPIT_DONE, 0 }, { INARUMPIT_BAD_LENGTH, 1 }, { INARUMPIT_BAD_DESK, 2 }, { INARUMPIT_BAD_NUMBER, 3 },
        { INARUMPIT_BAD_KIND, 4 }, { INARUMPIT_ALREADY_THERE, 5 }, { INARUMPIT_NOT_THERE, 6 }, { INARUMPIT_TABLE_FULL, 7 },
        { INARUMPIT_SHELF_FULL, 8 }, { INARUMPIT_NO_POSITION, 9 }, { INARUMPIT_NO_SCAN, 10 }, { INARUMPIT_NO_TICKET, 11 },
        { INARUMPIT_PAUSED, 100 }, { INARUMPIT_FINISHED, 101 }
    };
    static const uint64_t others[][2] = {
        { INARUMPIT_DESK_SIZE, DESK_BYTES }, { INARUMPIT_SLOT_SIZE, SLOT_BYTES }, { INARUMPIT_BODY_SIZE, BODY_BYTES },
        { INARUMPIT_OUT_SIZE, OUT_BYTES }, { INARUMPIT_SCANS_MAX, POSITIONS }, { INARUMPIT_SLOTS_MAX, 16384 },
        { INARUMPIT_ENTRIES_MAX, 1048576 }, { INARUMPIT_BOUND, 1 }, { INARUMPIT_WRITTEN, 2 }, { INARUMPIT_SPOKEN, 3 },
        { INARUMPIT_BODY_OWN, 5 }, { INARUMPIT_STORE_BYTES(3, 5), 1600 }, { sizeof memory, 68158528 }
    };
    for (size_t i = 0; i < COUNT(answers); i++)
        must("an answer's number", answers[i][0], answers[i][1]);
    for (size_t i = 0; i < COUNT(others); i++)
        must("a size, a kind or an offset", others[i][0], others[i][1]);
}

/* ---- what comes back */

static void returns(void)
{
    static const uint64_t looks[] = { 0, 1, 5, 1064960, 2097151 }, handed[] = { 0, 1, 3, 1064960, 2097151 };
    static const uint64_t records[] = { 0, 1, 16384, 32767 }, entries[] = { 0, 1, 1048575, 1048576 };
    static const uint64_t whole[] = { 0, 1, 255, 256, 65535, UINT32_MAX };
    for (size_t i = 0; i < COUNT(looks); i++)
        for (size_t k = 0; k < COUNT(handed); k++) {
            uint64_t returned = 101 + 256 * (looks[i] + 2097152 * handed[k]);
            must("looks", inarumpit_looks_of(returned), looks[i]);
            must("handed", inarumpit_handed_of(returned), handed[k]);
        }
    for (size_t i = 0; i < COUNT(records); i++)
        for (size_t k = 0; k < COUNT(entries); k++) {
            uint64_t returned = 256 * (records[i] + 32768 * entries[k]);
            must("records", inarumpit_records_of(returned), records[i]);
            must("entries", inarumpit_entries_of(returned), entries[k]);
        }
    for (size_t i = 0; i < COUNT(whole); i++) {
        must("ticket", inarumpit_ticket_of(256 * whole[i]), whole[i]);
        must("owed", inarumpit_owed_of(256 * whole[i]), whole[i]);
        must("ticket after a refusal", inarumpit_ticket_of(whole[i] % 256), 0);
    }
}

/* Each answer has a text of its own, and all other numbers one besides. */
static void texts(void)
{
    static const uint32_t known[] = { 0, 1, 2, 3, 4, 5, 6, 7, 8, 9, 10, 11, 100, 101 };
    const char *other = inarumpit_text(255);
    for (uint32_t answer = 0; answer < 256; answer++) {
        const char *text = inarumpit_text(answer);
        bool is_known = false;
        for (size_t i = 0; i < COUNT(known); i++) {
            is_known = is_known || known[i] == answer;
            must("whether two answers have one text", known[i] != answer && strcmp(text, inarumpit_text(known[i])) == 0, 0);
        }
        must("whether a number has the text of no answer", strcmp(text, other) == 0, !is_known);
        must("whether the value changes a text", strcmp(text, inarumpit_text(answer + 256 * UINT64_C(1000003))) != 0, 0);
        must("how a text ends", text[0] == '\0' || text[strlen(text) - 1] == '\n', 0);
    }
}

/* ---- bytes */

static void numbers(struct chance *chance)
{
    for (int k = 0; k < 1000; k++) {
        uint64_t value = k == 0 ? 0 : k == 1 ? UINT64_MAX : k < 66 ? UINT64_C(1) << (k - 2) : draw(chance);
        uint8_t ours[24] = { 0 }, theirs[24] = { 0 };
        size_t at = (size_t)k % 8;
        inarumpit_put64(ours + at, value);
        write64(theirs + at, value);
        inarumpit_put32(ours + at + 8, (uint32_t)value);
        write32(theirs + at + 8, (uint32_t)value);
        must("whether bytes put differ", memcmp(ours, theirs, sizeof ours) != 0, 0);
        must("64 bits", inarumpit_get64(ours + at), read64(theirs + at));
        must("32 bits", inarumpit_get32(ours + at + 8), read32(theirs + at + 8));
    }
}

/* Four buffers anywhere in five bytes: they overlap where some byte is in two of them. */
static void overlaps(void)
{
    uint8_t bytes[5];
    enum { STARTS = 4, LENGTHS = 3, WAYS = STARTS * LENGTHS };
    for (uint32_t way = 0; way < WAYS * WAYS * WAYS * WAYS; way++) {
        uint32_t rest = way, within[5] = { 0 }, twice = 0;
        size_t start[4], len[4];
        for (int b = 0; b < 4; b++, rest /= WAYS) {
            start[b] = rest % STARTS;
            len[b] = rest % WAYS / STARTS;
            for (size_t i = 0; i < len[b]; i++)
                twice |= within[start[b] + i]++ > 0;
        }
        struct inarumpit_store store;
        store.desk = bytes + start[0];
        store.desk_len = len[0];
        store.table = bytes + start[1];
        store.table_len = len[1];
        store.shelf = bytes + start[2];
        store.shelf_len = len[2];
        must("overlaps", (uint64_t)inarumpit_store_overlaps(&store, bytes + start[3], len[3]), twice);
    }
}

/* ---- the shelf that suffices does, and one entry fewer does not */

static void suffices(struct chance *chance, uint32_t n, uint32_t slots)
{
    for (uint32_t fewer = 0; fewer < 2; fewer++) {
        uint32_t entries = inarumpit_shelf_enough(n, slots) - fewer;
        uint8_t body[BODY_BYTES];
        struct shape shape = shape_by(chance, "a shelf that suffices", slots, entries, true);
        draw_body(chance, body);
        play_start(&shape);
        expect(call_open(n), 0);
        for (uint32_t k = 1; k <= slots; k++)
            expect(call_insert(k, body), 0);
        for (uint32_t scan = 1; scan <= n; scan++) {
            expect(call_begin(), 256 * (uint64_t)scan);
            for (uint32_t k = 1; k <= slots; k++)
                expect(call_modify(k, body), scan == n && k == slots && fewer ? 8 : 0);
        }
        expect(call_delete(1), fewer && slots == 1 ? 8 : 0);
    }
}

/* ---- after a restart */

/* The scans of a store whose tickets nobody knows: listed, and drawn to the end with their rest as it was inserted. */
static void restart(struct chance *chance, uint32_t n, uint32_t slots)
{
    uint8_t body[BODY_BYTES];
    struct shape shape = shape_by(chance, "tickets lost at a restart", slots, inarumpit_shelf_enough(n, slots), true);
    draw_body(chance, body);
    play_start(&shape);
    expect(call_open(n), 0);
    for (uint32_t k = 1; k <= slots; k++)
        expect(call_insert(1000 * k, body), 0);
    for (uint32_t scan = 0; scan < n; scan++) {
        expect(call_begin(), 256 * (uint64_t)(scan + 1));
        for (uint32_t k = 0; k < scan % (slots + 1); k++)
            play(call_next(scan + 1, UNBOUNDED));
    }
    expect(call_begin(), 9);
    expect(call_delete(1000), 0);

    struct inarumpit_store store = inarumpit_store_in(NULL, 0, 0, 0);
    store.desk = (uint8_t *)lent(DESK);
    store.desk_len = DESK_BYTES;
    struct inarumpit_scan scans[INARUMPIT_SCANS_MAX];
    uint32_t count = inarumpit_store_running(&store, scans);
    must("scans that run after a restart", count, n);
    for (uint32_t i = 0; i < count; i++) {
        uint32_t handed = i % (slots + 1);
        must("handed before a restart", scans[i].handed, handed);
        must("place before a restart", scans[i].place, handed);
        uint64_t returned;
        while (returned = play(call_next(scans[i].ticket, between(chance, 1, 3))), inarumpit_goes_on(returned)) {
            if (inarumpit_answer_of(returned) != INARUMPIT_DONE)
                continue;
            const uint8_t *out = lent(OUT);
            handed++;
            must("a record handed out after a restart", inarumpit_number(out) % 1000, 0);
            must("its body", (uint64_t)memcmp(inarumpit_body(out), body, BODY_BYTES), 0);
            must("its start day", inarumpit_start_day(out), read32(body));
            must("its kind", inarumpit_kind(out), body[4]);
        }
        must("the last answer", inarumpit_answer_of(returned), 101);
        must("handed in all", inarumpit_handed_of(returned), slots);
        must("handed as counted", handed, slots);
    }
    must("scans that run then", inarumpit_store_running(&store, scans), 0);
    expect(call_begin(), 256 * (uint64_t)(n + 1));
}

void play_header(struct chance *chance)
{
    names();
    sizes();
    pieces();
    returns();
    texts();
    numbers(chance);
    overlaps();
    suffices(chance, 2, 1);
    suffices(chance, 1, 5);
    suffices(chance, 3, 4);
    suffices(chance, 64, 2);
    restart(chance, 1, 3);
    restart(chance, 5, 4);
    restart(chance, 64, 7);
}
