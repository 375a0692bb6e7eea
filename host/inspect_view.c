/* What the bytes say, without trusting one of them. */
#include "inspect.h"

#include <inttypes.h>
#include <stdarg.h>
#include <stdio.h>

static bool bit(uint64_t mask, uint32_t position)
{
    return mask >> position & 1;
}

const uint8_t *slot_at(const struct view *v, uint32_t slot)
{
    return v->store.table + (size_t)slot * INARUMPIT_SLOT_SIZE;
}

const uint8_t *entry_at(const struct view *v, uint32_t entry)
{
    return v->store.shelf + (size_t)entry * INARUMPIT_SLOT_SIZE;
}

uint64_t slot_awaited(const struct view *v, uint32_t slot)
{
    uint64_t status = inarumpit_get64(slot_at(v, slot) + INARUMPIT_SLOT_MASK);
    bool used = inarumpit_number(slot_at(v, slot)) != 0;
    return used && v->has_desk ? ~((v->stable ^ status) | v->local) : 0;
}

uint64_t entry_awaited(const struct view *v, uint32_t entry)
{
    const uint8_t *at = entry_at(v, entry);
    return inarumpit_number(at) != 0 ? ~inarumpit_get64(at + INARUMPIT_SLOT_MASK) : 0;
}

uint32_t versions_for(const struct view *v, uint32_t position)
{
    uint32_t count = 0;
    for (uint32_t k = 0; k < v->entries; k++)
        count += bit(entry_awaited(v, k), position);
    return count;
}

/* ---- why the library refuses the desk */

static bool broken(struct view *v, const char *format, ...)
{
    va_list words;
    va_start(words, format);
    vsnprintf(v->why, sizeof v->why, format, words);
    va_end(words);
    return true;
}

static bool zero(const uint8_t *bytes, uint32_t count)
{
    for (uint32_t k = 0; k < count; k++)
        if (bytes[k] != 0)
            return false;
    return true;
}

static bool head_broken(struct view *v)
{
    if (v->n < 1 || v->n > INARUMPIT_SCANS_MAX)
        return broken(v, "N is %" PRIu32 ", not from 1 to 64", v->n);
    if (v->slots_said != v->slots)
        return broken(v, "T is %" PRIu32 ", but the table has %" PRIu32 " slots", v->slots_said, v->slots);
    if (v->entries_said != v->entries)
        return broken(v, "R is %" PRIu32 ", but the shelf has %" PRIu32 " entries", v->entries_said, v->entries);
    if (!zero(v->store.desk + INARUMPIT_DESK_ZERO, INARUMPIT_DESK_CARDS - INARUMPIT_DESK_ZERO))
        return broken(v, "bytes 40 to 63 of the desk are not zero");
    for (uint32_t i = v->n; i < INARUMPIT_SCANS_MAX; i++)
        if (bit(v->stable, i) || !bit(v->active, i) || !bit(v->local, i))
            return broken(v, "position %" PRIu32 ", not below N, has a wrong bit in a mask", i);
    return false;
}

static bool card_broken(struct view *v, uint32_t i)
{
    const uint8_t *card = v->store.desk + INARUMPIT_DESK_CARDS + (size_t)INARUMPIT_CARD_SIZE * i;
    uint32_t ticket = inarumpit_get32(card + INARUMPIT_CARD_TICKET), place = inarumpit_get32(card + INARUMPIT_CARD_PLACE);
    if ((ticket == 0) != bit(v->active, i))
        return broken(v, "position %" PRIu32 " has %s ticket, but its active bit is %d", i, ticket ? "a" : "no",
                      bit(v->active, i));
    if (ticket == 0 && !zero(card, INARUMPIT_CARD_SIZE))
        return broken(v, "position %" PRIu32 " has no ticket, but its card is not zero", i);
    if (ticket == 0 && !bit(v->local, i))
        return broken(v, "position %" PRIu32 " has no ticket, but its local active bit is 0", i);
    if (ticket == 0)
        return false;
    if (ticket > v->last)
        return broken(v, "ticket %" PRIu32 " at position %" PRIu32 " was never given", ticket, i);
    if (place > v->slots + v->entries)
        return broken(v, "place %" PRIu32 " of ticket %" PRIu32 " is beyond T + R", place, ticket);
    if ((place < v->slots) == bit(v->local, i))
        return broken(v, "place %" PRIu32 " of ticket %" PRIu32 " does not go with its local active bit, %d", place, ticket,
                      bit(v->local, i));
    if (inarumpit_get32(card + INARUMPIT_CARD_HANDED) > place)
        return broken(v, "ticket %" PRIu32 " has been handed more records than it made looks", ticket);
    if (!zero(card + INARUMPIT_CARD_ZERO, INARUMPIT_CARD_SIZE - INARUMPIT_CARD_ZERO))
        return broken(v, "the last four bytes of ticket %" PRIu32 "'s card are not zero", ticket);
    return false;
}

/* ---- the whole of it */

/* Whole slots in a buffer, as many as a store can have. */
static uint32_t whole(size_t len, uint32_t most)
{
    return len / INARUMPIT_SLOT_SIZE < most ? (uint32_t)(len / INARUMPIT_SLOT_SIZE) : most;
}

static void read_desk(struct view *v)
{
    const uint8_t *desk = v->store.desk;
    v->n = inarumpit_get32(desk + INARUMPIT_DESK_N);
    v->slots_said = inarumpit_get32(desk + INARUMPIT_DESK_T);
    v->entries_said = inarumpit_get32(desk + INARUMPIT_DESK_R);
    v->last = inarumpit_get32(desk + INARUMPIT_DESK_LAST);
    v->stable = inarumpit_get64(desk + INARUMPIT_DESK_STABLE);
    v->active = inarumpit_get64(desk + INARUMPIT_DESK_ACTIVE);
    v->local = inarumpit_get64(desk + INARUMPIT_DESK_LOCAL);
    v->scans = inarumpit_store_running(&v->store, v->scan);
}

void view_fill(struct view *v)
{
    v->answer = inarumpit_answer_of(inarumpit_store_tally(&v->store));
    v->has_desk = v->store.desk_len == INARUMPIT_DESK_SIZE;
    v->slots = whole(v->store.table_len, INARUMPIT_SLOTS_MAX);
    v->entries = whole(v->store.shelf_len, INARUMPIT_ENTRIES_MAX);
    for (uint32_t k = 0; k < v->slots; k++)
        v->records += inarumpit_number(slot_at(v, k)) != 0;
    for (uint32_t k = 0; k < v->entries; k++)
        v->versions += inarumpit_number(entry_at(v, k)) != 0;
    if (!v->has_desk)
        return;
    read_desk(v);
    if (v->answer != INARUMPIT_BAD_DESK || head_broken(v))
        return;
    for (uint32_t i = 0; i < INARUMPIT_SCANS_MAX; i++)
        if (card_broken(v, i))
            return;
}

/* ---- in words */

void positions_text(uint64_t mask, char *text, size_t size)
{
    size_t used = 0;
    text[0] = '\0';
    for (uint32_t i = 0; i < INARUMPIT_SCANS_MAX; i++) {
        uint32_t first = i;
        char range[16];
        if (!bit(mask, i))
            continue;
        while (i + 1 < INARUMPIT_SCANS_MAX && bit(mask, i + 1))
            i++;
        int len = i > first ? snprintf(range, sizeof range, "%s%" PRIu32 "-%" PRIu32, used ? " " : "", first, i)
                            : snprintf(range, sizeof range, "%s%" PRIu32, used ? " " : "", first);
        if (used + (size_t)len + sizeof " .." > size) {
            snprintf(text + used, size - used, " ..");
            return;
        }
        used += (size_t)snprintf(text + used, size - used, "%s", range);
    }
}

void place_text(const struct view *v, const struct inarumpit_scan *scan, char *text, size_t size)
{
    if (scan->place < v->slots_said)
        snprintf(text, size, "slot %" PRIu32, scan->place);
    else if (scan->place - v->slots_said < v->entries_said)
        snprintf(text, size, "entry %" PRIu32, scan->place - v->slots_said);
    else if (scan->place - v->slots_said == v->entries_said)
        snprintf(text, size, "the end");
    else
        snprintf(text, size, "beyond");
}

void verdict_text(const struct view *v, char *text, size_t size)
{
    if (v->answer == INARUMPIT_DONE)
        snprintf(text, size, "The library accepts this store.");
    else
        snprintf(text, size, "The library refuses this store: answer %" PRIu32 ", %s%s%s.", v->answer,
                 inarumpit_text(v->answer), v->why[0] ? ": " : "", v->why);
}
