#include "readings.h"

#include <inttypes.h>
#include <stdio.h>
#include <string.h>

#include "store.h"

uint64_t readings_compared;

static char why[200];

/* Whether both read the same number; if not, why says it. */
static int same(const char *what, uint64_t header, uint64_t second)
{
    readings_compared++;
    if (header == second)
        return 1;
    snprintf(why, sizeof why, "%s: the header reads %" PRIu64 ", the second program %" PRIu64, what, header, second);
    return 0;
}

static int same_body(const uint8_t *header, const uint8_t *second)
{
    return same("whether a body differs", memcmp(header, second, INARUMPIT_BODY_SIZE) != 0, 0);
}

static int same_head(const uint8_t *desk, const struct reading *second)
{
    return same("N", inarumpit_get32(desk + INARUMPIT_DESK_N), second->n)
        && same("T", inarumpit_get32(desk + INARUMPIT_DESK_T), second->t)
        && same("R", inarumpit_get32(desk + INARUMPIT_DESK_R), second->r)
        && same("the last ticket", inarumpit_get32(desk + INARUMPIT_DESK_LAST), second->last)
        && same("the stable mask", inarumpit_get64(desk + INARUMPIT_DESK_STABLE), second->stable)
        && same("the active mask", inarumpit_get64(desk + INARUMPIT_DESK_ACTIVE), second->active)
        && same("the local active mask", inarumpit_get64(desk + INARUMPIT_DESK_LOCAL), second->local)
        && same("byte 40", desk[INARUMPIT_DESK_ZERO], second->rest[0]);
}

static int same_running(const struct inarumpit_store *store, const struct reading *second)
{
    struct inarumpit_scan scans[INARUMPIT_SCANS_MAX];
    uint32_t count = inarumpit_store_running(store, scans), k = 0;
    for (uint32_t i = 0; i < INARUMPIT_SCANS_MAX; i++) {
        if (second->card[i].ticket == 0)
            continue;
        const uint8_t *card = store->desk + INARUMPIT_DESK_CARDS + INARUMPIT_CARD_SIZE * i;
        if (!same("a card's last number", inarumpit_get32(card + INARUMPIT_CARD_ZERO), second->card[i].zero))
            return 0;
        if (k < count && !(same("position", scans[k].position, i)
                           && same("ticket", scans[k].ticket, second->card[i].ticket)
                           && same("place", scans[k].place, second->card[i].place)
                           && same("handed", scans[k].handed, second->card[i].handed)))
            return 0;
        k++;
    }
    return same("scans that run", count, k);
}

static int same_record(const uint8_t *record, const struct record *second)
{
    const uint8_t *body = second->body;
    return same("record number", inarumpit_number(record), second->number)
        && same("start day", inarumpit_start_day(record), body[0] + 256u * (body[1] + 256u * (body[2] + 256u * body[3])))
        && same("kind", inarumpit_kind(record), body[4])
        && same_body(inarumpit_body(record), body)
        && same("mask", inarumpit_get64(record + INARUMPIT_SLOT_MASK), second->mask);
}

/* The first slot, the last, and one between. */
static int same_slots(const uint8_t *slots, const struct record *second, uint32_t count, uint32_t choice)
{
    const uint32_t which[] = { 0, count - 1, count == 0 ? 0 : choice % count };
    for (size_t i = 0; count > 0 && i < sizeof which / sizeof which[0]; i++)
        if (!same_record(slots + INARUMPIT_SLOT_SIZE * which[i], &second[which[i]]))
            return 0;
    return 1;
}

static int same_found(const struct inarumpit_store *store, const struct reading *second, uint32_t number)
{
    const uint8_t *body = inarumpit_store_read(store, number);
    const struct record *bearing = second_bearing(number);
    if (!same("records found by number", body != NULL, bearing != NULL))
        return 0;
    return bearing == NULL
        || (same_body(body, bearing->body)
            && same("slot by number, its body's offset", (uint64_t)(body - store->table),
                    (uint64_t)(bearing - second->table) * INARUMPIT_SLOT_SIZE + INARUMPIT_SLOT_BODY));
}

/* The call's number, those of a slot and beside it, and the bounds. */
static int same_by_number(const struct inarumpit_store *store, const struct reading *second, uint32_t number, uint32_t choice)
{
    const uint32_t in_slot = second->slots == 0 ? 0 : second->table[choice % second->slots].number;
    const uint32_t numbers[] = { number, in_slot, in_slot + 1, 0, UINT32_MAX };
    for (size_t i = 0; i < sizeof numbers / sizeof numbers[0]; i++)
        if (!same_found(store, second, numbers[i]))
            return 0;
    return 1;
}

/* answer + 256 x value. */
static int same_return(uint64_t returned)
{
    return same("answer", inarumpit_answer_of(returned), returned % 256)
        && same("value", inarumpit_value_of(returned), returned / 256)
        && same("goes on", (uint64_t)inarumpit_goes_on(returned), returned % 256 == 0 || returned % 256 == 100);
}

const char *readings_differ(const struct inarumpit_store *store, uint32_t number, uint32_t choice, uint64_t returned)
{
    const struct reading *second = second_reading(store->desk, store->desk_len, store->table, store->table_len,
                                                  store->shelf, store->shelf_len);
    return (store->desk_len != INARUMPIT_DESK_SIZE || same_head(store->desk, second))
        && same_running(store, second)
        && same_slots(store->table, second->table, second->slots, choice)
        && same_slots(store->shelf, second->shelf, second->entries, choice)
        && same_by_number(store, second, number, choice)
        && same_return(returned) ? NULL : why;
}
