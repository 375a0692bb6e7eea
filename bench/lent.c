/* A store of document 01, built twice: CALLS begins the names of its calls, SUBJECT is its own, DRAWS as in work.h. */
#include "../second/store.h"
#include "work.h"

#include <string.h>

enum { DESK = 1088, SLOT = 64, OUT = 56 };

/* R = T; as it stands, and as it stood after the opening. */
static struct memory {
    uint8_t desk[DESK], table[MOST_SLOTS * SLOT], shelf[MOST_SLOTS * SLOT];
} now, opened;
static size_t slots_len;
static uint32_t tickets[SCANS];

#define STORE now.desk, DESK, now.table, slots_len, now.shelf, slots_len

static void copy(struct memory *to, const struct memory *from)
{
    memcpy(to->desk, from->desk, DESK);
    memcpy(to->table, from->table, slots_len);
    memcpy(to->shelf, from->shelf, slots_len);
}

/* The slots are written as insert leaves them (status mask 0), without its search for each. */
static void opens(uint32_t slots, const uint8_t *body)
{
    slots_len = (size_t)slots * SLOT;
    if (CALL(open)(STORE, SCANS) != 0)
        fail(TEXT_OF(SUBJECT), "open");
    for (uint32_t k = 0; k < slots; k++) {
        uint8_t *slot = now.table + (size_t)k * SLOT;
        for (int i = 0; i < 4; i++)
            slot[i] = (uint8_t)((k + 1) >> 8 * i);
        memcpy(slot + 4, body, BODY);
    }
    copy(&opened, &now);
}

static void modify(const uint32_t *numbers, int count, const uint8_t *body, bool together)
{
    (void)together;
    for (int i = 0; i < count; i++)
        if (CALL(modify)(STORE, numbers[i], body, BODY) != 0)
            fail(TEXT_OF(SUBJECT), "modify");
}

static void begin(int scan)
{
    uint64_t returned = CALL(begin)(STORE);
    if (returned % 256 != 0)
        fail(TEXT_OF(SUBJECT), "begin");
    tickets[scan] = (uint32_t)(returned / 256);
}

static struct list draw(int scan, uint32_t most)
{
    struct list l = { 0, 0 };
    uint8_t out[OUT];
    while (l.records < most && CALL(next)(STORE, tickets[scan], UINT32_MAX, out, OUT) % 256 == 0)
        add(&l, out[0] | (uint32_t)out[1] << 8 | (uint32_t)out[2] << 16 | (uint32_t)out[3] << 24, out + 4);
    return l;
}

static void drop(void)
{
    copy(&now, &opened);
}

static uint64_t kept(void)
{
    return SLOT * (CALL(tally)(STORE) / 256 / 32768);
}

static void closes(void)
{
}

const struct store SUBJECT = { TEXT_OF(SUBJECT), DRAWS, opens, modify, begin, draw, drop, kept, closes };
