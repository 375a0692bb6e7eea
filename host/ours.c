/* The library, lent three buffers of this file. */
#include "store.h"

#include <string.h>

static uint8_t desk[INARUMPIT_DESK_SIZE];
static uint8_t table[SLOTS * INARUMPIT_SLOT_SIZE];
static uint8_t shelf[ENTRIES * INARUMPIT_SLOT_SIZE];

#define LENT desk, sizeof desk, table, sizeof table, shelf, sizeof shelf

/* A record as it stands in a buffer: number, little-endian, then body. */
static struct record read_record(const uint8_t *from)
{
    struct record r;
    r.number = from[0] | (uint32_t)from[1] << 8 | (uint32_t)from[2] << 16 | (uint32_t)from[3] << 24;
    memcpy(r.body, from + 4, sizeof r.body);
    return r;
}

static void open(void)
{
    inarumpit_open(LENT, LISTS);
}

static uint32_t insert(const struct record *record)
{
    return inarumpit_answer_of(inarumpit_insert(LENT, record->number, record->body, sizeof record->body));
}

static uint32_t modify(const struct record *record)
{
    return inarumpit_answer_of(inarumpit_modify(LENT, record->number, record->body, sizeof record->body));
}

static uint32_t delete(uint32_t number)
{
    return inarumpit_answer_of(inarumpit_delete(LENT, number));
}

static uint32_t begin(void)
{
    return inarumpit_ticket_of(inarumpit_begin(LENT));
}

static uint64_t next(uint32_t ticket, uint32_t budget, struct record *out)
{
    uint8_t bytes[INARUMPIT_OUT_SIZE];
    uint64_t returned = inarumpit_next(LENT, ticket, budget, bytes, sizeof bytes);
    if (inarumpit_answer_of(returned) == INARUMPIT_DONE)
        *out = read_record(bytes);
    return returned;
}

static struct record slot(uint32_t k)
{
    return read_record(table + INARUMPIT_SLOT_SIZE * k);
}

static uint32_t entries(void)
{
    return inarumpit_entries_of(inarumpit_tally(LENT));
}

const struct store library = { open, insert, modify, delete, begin, next, slot, entries };
