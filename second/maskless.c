#include "maskless.h"

#include <stdio.h>
#include <stdlib.h>
#include <string.h>

/* What one accepted insert or modify made of a record. Kept while it is in the table or some scan awaits it. */
struct version {
    uint8_t bytes[OUT_BYTES];    /* number and body */
    bool in_table;
    bool awaited[POSITIONS];     /* by the scan in this place of the list below */
    uint32_t waiting;            /* how many scans await it */
};

struct scan {
    uint32_t ticket;             /* 0: none */
    uint32_t looks, handed;      /* over its life */
};

/* The store as the calls and answers since its opening tell it. */
static bool opened;
static uint32_t slots, entries, n, last;
static struct version *version;
static size_t versions, room;
static struct scan scan[POSITIONS];
static uint8_t *needed, *found;  /* 56 bytes for each version on the shelf: as it should be, as it is */

void maskless_start(uint32_t t, uint32_t r)
{
    opened = false;
    slots = t;
    entries = r;
    if (room < (size_t)t + r + 1) {
        room = (size_t)t + r + 1;
        version = realloc(version, room * sizeof *version);
        needed = realloc(needed, room * OUT_BYTES);
        found = realloc(found, room * OUT_BYTES);
        if (!version || !needed || !found) {
            perror("agree: no memory for the maskless reading");
            exit(2);
        }
    }
}

/* ---- what the history tells */

static struct version *present(uint32_t number)
{
    for (size_t v = 0; v < versions; v++)
        if (version[v].in_table && read32(version[v].bytes) == number)
            return &version[v];
    return NULL;
}

static struct scan *running(uint32_t ticket)
{
    for (int i = 0; i < POSITIONS; i++)
        if (ticket != 0 && scan[i].ticket == ticket)
            return &scan[i];
    return NULL;
}

static uint32_t scans_running(void)
{
    uint32_t count = 0;
    for (int i = 0; i < POSITIONS; i++)
        count += scan[i].ticket != 0;
    return count;
}

static uint32_t in_table(void)
{
    uint32_t count = 0;
    for (size_t v = 0; v < versions; v++)
        count += version[v].in_table;
    return count;
}

/* Versions that have left the table and are awaited. */
static uint32_t left(void)
{
    return (uint32_t)versions - in_table();
}

static uint32_t awaited_by(const struct scan *by)
{
    uint32_t count = 0;
    for (size_t v = 0; v < versions; v++)
        count += version[v].awaited[by - scan];
    return count;
}

/* ---- when a call is refused, and with which number; 0: it is not */

static bool lengths_right(const struct call *c, const size_t *len)
{
    if (len[DESK] != DESK_BYTES || len[TABLE] != SLOT_BYTES * (size_t)slots || len[SHELF] != SLOT_BYTES * (size_t)entries)
        return false;
    if (c->which == INSERT || c->which == MODIFY)
        return len[BODY] == BODY_BYTES;
    return c->which != NEXT || len[OUT] == OUT_BYTES;
}

static bool no_room(uint32_t number)
{
    return present(number)->waiting > 0 && left() == entries;
}

static uint64_t refusal(const struct call *c)
{
    bool kind = c->bytes[4] >= 1 && c->bytes[4] <= 3;
    switch (c->which) {
    case INSERT:
        return c->number == 0 ? 3 : !kind ? 4 : present(c->number) ? 5 : in_table() == slots ? 7 : 0;
    case MODIFY:
        return c->number == 0 ? 3 : !kind ? 4 : !present(c->number) ? 6 : no_room(c->number) ? 8 : 0;
    case DELETE:
        return c->number == 0 ? 3 : !present(c->number) ? 6 : no_room(c->number) ? 8 : 0;
    case BEGIN:
        return scans_running() == n ? 9 : last == UINT32_MAX ? 11 : 0;
    case NEXT:
    case OWED:
        return !running(c->number) ? 10 : 0;
    default:
        return 0;
    }
}

/* ---- what an accepted call changes */

static void drop_if_done(struct version *v)
{
    if (!v->in_table && v->waiting == 0)
        *v = version[--versions];
}

static void enters(uint32_t number, const uint8_t *body)
{
    struct version *v = &version[versions++];
    memset(v, 0, sizeof *v);
    write32(v->bytes, number);
    memcpy(v->bytes + 4, body, BODY_BYTES);
    v->in_table = true;
}

static void leaves(uint32_t number)
{
    struct version *v = present(number);
    v->in_table = false;
    drop_if_done(v);
}

static void begins(uint32_t ticket)
{
    struct scan *free_one = scan;
    while (free_one->ticket != 0)
        free_one++;
    *free_one = (struct scan){ ticket, 0, 0 };
    last = ticket;
    for (size_t v = 0; v < versions; v++) {
        version[v].awaited[free_one - scan] = version[v].in_table;
        version[v].waiting += version[v].in_table;
    }
}

/* A record in hand: one that the scan began with and was not handed before, as it read then. */
static const char *hands_out(struct scan *to, const uint8_t *out)
{
    for (size_t v = 0; v < versions; v++)
        if (version[v].awaited[to - scan] && memcmp(version[v].bytes, out, OUT_BYTES) == 0) {
            version[v].awaited[to - scan] = false;
            version[v].waiting--;
            drop_if_done(&version[v]);
            to->handed++;
            return NULL;
        }
    return "demand 2: handed out what the scan did not begin with, or once more, or as it did not read";
}

static const char *next_told(const struct call *c, uint64_t answer, uint64_t value, const uint8_t *out)
{
    struct scan *by = running(c->number);
    uint64_t looks = answer == 101 ? value % 2097152 : value, whole = (uint64_t)slots + entries;
    if (answer != 0 && answer != 100 && answer != 101)
        return "demand 2: next is refused without a reason";
    if (looks > c->budget || by->looks + looks > whole)
        return "demand 2: more looks than the budget, or than T + R";
    by->looks += (uint32_t)looks;
    if (answer == 0)
        return looks == 0 ? "demand 2: a record without a look" : hands_out(by, out);
    if (answer == 100)
        return looks != c->budget || by->looks == whole ? "demand 2: paused before the budget, or at the end" : NULL;
    if (by->looks != whole)
        return "demand 2: finished without T + R looks";
    if (awaited_by(by) != 0)
        return "demand 2: finished with a record still to hand out";
    if (value / 2097152 != by->handed)
        return "demand 2: another count of records than were handed out";
    by->ticket = 0;
    return NULL;
}

static const char *accepted(const struct call *c, uint64_t answer, uint64_t value, const uint8_t *out)
{
    const struct scan *by;
    switch (c->which) {
    case INSERT:
        enters(c->number, c->bytes);
        return NULL;
    case MODIFY:
        leaves(c->number);
        enters(c->number, c->bytes);
        return NULL;
    case DELETE:
        leaves(c->number);
        return NULL;
    case BEGIN:
        if (value != (uint64_t)last + 1)
            return "begin gives another ticket than the next one";
        begins((uint32_t)value);
        return NULL;
    case NEXT:
        return next_told(c, answer, value, out);
    case TALLY:
        return value != in_table() + 32768 * (uint64_t)left() ? "tally counts otherwise" : NULL;
    case OWED:
        /* In the shelf walk document 01's formula counts each record of the table besides. */
        by = running(c->number);
        return value != awaited_by(by) + (by->looks >= slots ? in_table() : 0) ? "owed counts otherwise" : NULL;
    default:
        return NULL;
    }
}

/* ---- demand 3 */

static int by_bytes(const void *a, const void *b)
{
    return memcmp(a, b, OUT_BYTES);
}

static const char *shelf_told(const uint8_t *shelf)
{
    size_t need = 0, have = 0;
    for (size_t v = 0; v < versions; v++)
        if (!version[v].in_table)
            memcpy(needed + OUT_BYTES * need++, version[v].bytes, OUT_BYTES);
    for (uint32_t k = 0; k < entries; k++, shelf += SLOT_BYTES)
        if (read32(shelf) != 0)
            memcpy(found + OUT_BYTES * have++, shelf, OUT_BYTES);
    if (have != need)
        return have < need ? "demand 3: a version that is awaited is not on the shelf"
                           : "demand 3: an entry too many is on the shelf";
    qsort(needed, need, OUT_BYTES, by_bytes);
    qsort(found, have, OUT_BYTES, by_bytes);
    return memcmp(needed, found, OUT_BYTES * need) != 0 ? "demand 3: the shelf holds another version" : NULL;
}

const char *maskless_told(const struct call *c, const size_t *len, uint64_t returned, const uint8_t *out,
                          const uint8_t *shelf)
{
    uint64_t answer = returned % 256, value = returned / 256;
    if (c->which == OPEN) {
        uint64_t want = !lengths_right(c, len) ? 1 : c->number < 1 || c->number > POSITIONS ? 3 : 0;
        if (returned != want)
            return want == 0 ? "demand 2: open is refused without a reason" : "open is not refused though a reason holds";
        if (want == 0) {
            opened = true;
            n = c->number;
            last = 0;
            versions = 0;
            memset(scan, 0, sizeof scan);
        }
    }
    if (!opened)
        return NULL;
    if (c->which != OPEN) {
        uint64_t want = !lengths_right(c, len) ? 1 : refusal(c);
        if (want != 0 && returned != want)
            return "a reason to refuse holds, and another number comes back";
        if (want == 0 && answer != 0 && c->which != NEXT)
            return "demand 2: refused without a reason";
        const char *against = want != 0 ? NULL : accepted(c, answer, value, out);
        if (against)
            return against;
    }
    return shelf_told(shelf);
}
