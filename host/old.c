/* A stand-in for the old store, written for the demo: no more than its rule needs, and not the old store's own code. It
   keeps slots, shelf and masks as the library does, with one rule different: a scan's position is free again when its
   table walk ends, though it has still to read its versions on the shelf. Of the refusals it has only those that keep
   it within its arrays. */
#include "store.h"

#include <stdbool.h>
#include <string.h>

struct slot {
    struct record record;
    uint64_t mask;
};

/* A list remembers its own position, and goes on reading by it when another has been given the same one. */
struct scan {
    uint32_t position, place, handed;
};

enum { TICKETS = 8 };

static bool frees_early;                    /* the old store's rule */
static struct slot table[SLOTS], shelf[ENTRIES];
static uint64_t stable, active, local;      /* local: the local active mask */
static struct scan scans[TICKETS];          /* by ticket */
static uint32_t last_ticket;

static struct slot *bearing(struct slot *slots, uint32_t count, uint32_t number)
{
    for (uint32_t k = 0; k < count; k++)
        if (slots[k].record.number == number)
            return &slots[k];
    return NULL;
}

static void free_slot(struct slot *s)
{
    memset(s, 0, sizeof *s);
}

static void open_with(bool early)
{
    frees_early = early;
    memset(table, 0, sizeof table);
    memset(shelf, 0, sizeof shelf);
    stable = 0;
    active = local = UINT64_MAX;
    last_ticket = 0;
}

static void open_old(void) { open_with(true); }
static void open_right(void) { open_with(false); }

static uint32_t insert(const struct record *record)
{
    struct slot *s = bearing(table, SLOTS, 0);
    if (!s)
        return INARUMPIT_TABLE_FULL;
    s->record = *record;
    s->mask = ~(stable ^ local);
    return INARUMPIT_DONE;
}

/* Shelves the present version if some list waits for it. */
static uint32_t keep(struct slot *s)
{
    uint64_t m = (stable ^ s->mask) | local;
    if (m == UINT64_MAX)
        return INARUMPIT_DONE;
    struct slot *entry = bearing(shelf, ENTRIES, 0);
    if (!entry)
        return INARUMPIT_SHELF_FULL;
    entry->record = s->record;
    entry->mask = m;
    s->mask = ~(stable ^ local);
    return INARUMPIT_DONE;
}

static uint32_t modify(const struct record *record)
{
    struct slot *s = bearing(table, SLOTS, record->number);
    uint32_t answer = s ? keep(s) : INARUMPIT_NOT_THERE;
    if (answer == INARUMPIT_DONE)
        s->record = *record;
    return answer;
}

static uint32_t delete(uint32_t number)
{
    struct slot *s = bearing(table, SLOTS, number);
    uint32_t answer = s ? keep(s) : INARUMPIT_NOT_THERE;
    if (answer == INARUMPIT_DONE)
        free_slot(s);
    return answer;
}

static uint32_t begin(void)
{
    uint32_t position = 0;
    while (position < LISTS && !(active >> position & 1))
        position++;
    if (position == LISTS || last_ticket + 1 == TICKETS)
        return 0;
    active &= ~(UINT64_C(1) << position);
    local &= ~(UINT64_C(1) << position);
    scans[++last_ticket] = (struct scan){ .position = position };
    return last_ticket;
}

/* One look: whether a record is in hand. */
static bool look(struct scan *scan, struct record *out)
{
    uint64_t bit = UINT64_C(1) << scan->position;
    uint32_t place = scan->place++;
    bool in_hand;
    if (place < SLOTS) {
        struct slot *s = &table[place];
        in_hand = s->record.number != 0 && !((stable ^ s->mask) & bit);
        if (in_hand) {
            *out = s->record;
            s->mask ^= bit;
        }
        if (place == SLOTS - 1) {
            stable ^= bit;
            local |= bit;
            if (frees_early)
                active |= bit;
        }
    } else {
        struct slot *s = &shelf[place - SLOTS];
        in_hand = s->record.number != 0 && !(s->mask & bit);
        if (in_hand) {
            *out = s->record;
            s->mask |= bit;
            if (s->mask == UINT64_MAX)
                free_slot(s);
        }
    }
    return in_hand;
}

static uint64_t next(uint32_t ticket, uint32_t budget, struct record *out)
{
    struct scan *scan = &scans[ticket];
    uint64_t looks = 0;
    while (looks < budget && scan->place < SLOTS + ENTRIES) {
        looks++;
        if (look(scan, out)) {
            scan->handed++;
            return INARUMPIT_DONE + 256 * looks;
        }
    }
    if (scan->place < SLOTS + ENTRIES)
        return INARUMPIT_PAUSED + 256 * looks;
    if (!frees_early)
        active |= UINT64_C(1) << scan->position;
    return INARUMPIT_FINISHED + 256 * (looks + 2097152 * (uint64_t)scan->handed);
}

static struct record slot(uint32_t k)
{
    return table[k].record;
}

static uint32_t entries(void)
{
    uint32_t count = 0;
    for (uint32_t k = 0; k < ENTRIES; k++)
        count += shelf[k].record.number != 0;
    return count;
}

const struct store old_store = { open_old, insert, modify, delete, begin, next, slot, entries };
const struct store old_put_right = { open_right, insert, modify, delete, begin, next, slot, entries };
