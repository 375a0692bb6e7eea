/* The store to read, for a terminal of 100 columns. */
#include "inspect.h"

#include <inttypes.h>
#include <stdio.h>

enum { FIRST_LINES = 20, BAR = 30, OWN_SHOWN = 24 };

/* A file and its length, and what is wrong with that. */
static void show_file(const char *what, const char *name, size_t len, size_t unit, size_t most)
{
    bool over = len > most * unit;
    const char *wrong = over ? "too long" : len < unit ? "too short" : len % unit != 0 ? "part of a slot is left" : "";
    printf("  %-6s %s: %s%zu bytes%s%s\n", what, name, over ? "more than " : "", over ? most * unit : len,
           wrong[0] ? " <-- " : "", wrong);
}

static void show_files(const struct view *v)
{
    const struct inarumpit_store *s = &v->store;
    printf("FILES\n");
    show_file("desk", v->desk_name, s->desk_len, INARUMPIT_DESK_SIZE, 1);
    show_file("table", v->table_name, s->table_len, INARUMPIT_SLOT_SIZE, INARUMPIT_SLOTS_MAX);
    show_file("shelf", v->shelf_name, s->shelf_len, INARUMPIT_SLOT_SIZE, INARUMPIT_ENTRIES_MAX);
}

static void show_head(const struct view *v)
{
    printf("\nHEAD\n");
    printf("  N = %" PRIu32 " scans at a time, T = %" PRIu32 " slots, R = %" PRIu32 " entries, last ticket %" PRIu32 "\n",
           v->n, v->slots_said, v->entries_said, v->last);
}

static void show_mask(const char *name, uint64_t mask, uint32_t positions, const char *meaning)
{
    printf("  %-13s ", name);
    for (uint32_t i = 0; i < positions; i++)
        putchar(mask >> i & 1 ? '1' : '0');
    printf("%s%s\n", meaning[0] ? "  " : "", meaning);
}

/* Of a sound desk the positions below N: the others are all alike. */
static void show_masks(const struct view *v)
{
    uint32_t positions = v->answer == INARUMPIT_DONE ? v->n : INARUMPIT_SCANS_MAX;
    printf("\nMASKS, position 0 first\n  %-13s ", "");
    for (uint32_t i = 0; i < positions; i++)
        putchar(i % 10 == 0 ? (int)('0' + i / 10) : '.');
    printf("\n");
    show_mask("stable", v->stable, positions, "");
    show_mask("active", v->active, positions, "0: a scan runs");
    show_mask("local active", v->local, positions, "0: walks the table");
}

/* The looks made out of T + R, with a mark where the table ends. */
static void show_bar(const struct view *v, uint32_t place)
{
    uint64_t slots = v->slots_said, all = slots + v->entries_said, at = place < all ? place : all;
    uint64_t table = all == 0 ? 0 : BAR * slots / all;
    if (table == 0 && slots > 0)
        table = 1;
    if (table == BAR && v->entries_said > 0)
        table = BAR - 1;
    uint64_t done = at < slots ? at * table / slots
                  : at > slots ? table + (at - slots) * (BAR - table) / v->entries_said : table;
    putchar('[');
    for (uint64_t i = 0; i < BAR; i++)
        printf("%s%c", i == table ? "|" : "", i < done ? '#' : '.');
    printf("]");
}

static void show_scans(const struct view *v)
{
    printf("\nSCANS: %" PRIu32 " run\n", v->scans);
    if (v->scans > 0)
        printf("  position      ticket  next look       handed     owed  on shelf  table | shelf\n");
    for (uint32_t k = 0; k < v->scans; k++) {
        const struct inarumpit_scan *scan = &v->scan[k];
        uint64_t owed = inarumpit_store_owed(&v->store, scan->ticket);
        char place[32], count[16] = "-";
        place_text(v, scan, place, sizeof place);
        if (inarumpit_answer_of(owed) == INARUMPIT_DONE)
            snprintf(count, sizeof count, "%" PRIu32, inarumpit_owed_of(owed));
        printf("  %8" PRIu32 "  %10" PRIu32 "  %-13s  %7" PRIu32 "  %7s  %8" PRIu32 "  ", scan->position, scan->ticket,
               place, scan->handed, count, versions_for(v, scan->position));
        show_bar(v, scan->place);
        printf("\n");
    }
    if (v->scans > 0)
        printf("  Owed is the library's count. In a shelf walk it has every record of the table in it;\n"
               "  only those on the shelf are still handed out.\n");
}

/* The bytes that belong to the host, as far as they are text. */
static void show_own(const uint8_t *record)
{
    const uint8_t *own = inarumpit_body(record) + INARUMPIT_BODY_OWN;
    for (int i = 0; i < OWN_SHOWN; i++)
        putchar(own[i] >= ' ' && own[i] <= '~' ? own[i] : own[i] == 0 ? ' ' : '.');
}

static void show_record(uint32_t at, const uint8_t *record, uint64_t awaited)
{
    static const char *const names[] = { "", "bound", "written", "spoken" };
    uint32_t kind = inarumpit_kind(record);
    char positions[POSITIONS_TEXT], other[16];
    snprintf(other, sizeof other, "%" PRIu32 "?", kind);
    positions_text(awaited, positions, sizeof positions);
    printf("  %7" PRIu32 "  %10" PRIu32 "  %10" PRIu32 "  %-7s  ", at, inarumpit_number(record),
           inarumpit_start_day(record), kind >= 1 && kind <= 3 ? names[kind] : other);
    show_own(record);
    printf("  %s\n", positions[0] ? positions : "-");
}

/* The table or the shelf: those in use, the first of them or all. */
static void show_slots(const struct view *v, const char *what, const char *one, uint32_t used, uint32_t count, bool all,
                       const uint8_t *(*at)(const struct view *, uint32_t),
                       uint64_t (*awaited)(const struct view *, uint32_t))
{
    uint32_t shown = 0;
    printf("\n%s: %" PRIu32 " in use, %" PRIu32 " empty\n", what, used, count - used);
    if (used > 0)
        printf("  %7s  %10s  %10s  %-7s  %-*s  %s\n", one, "number", "start day", "kind", OWN_SHOWN, "the host's bytes",
               "awaited at positions");
    for (uint32_t k = 0; k < count && (all || shown < FIRST_LINES); k++) {
        if (inarumpit_number(at(v, k)) == 0)
            continue;
        show_record(k, at(v, k), awaited(v, k));
        shown++;
    }
    if (shown < used)
        printf("  and %" PRIu32 " more; --all shows them\n", used - shown);
}

void show_text(const struct view *v, bool all)
{
    char verdict[256];
    verdict_text(v, verdict, sizeof verdict);
    printf("%s\n\n", verdict);
    show_files(v);
    if (v->has_desk) {
        show_head(v);
        show_masks(v);
        show_scans(v);
    }
    show_slots(v, "TABLE", "slot", v->records, v->slots, all, slot_at, slot_awaited);
    show_slots(v, "SHELF, old versions", "entry", v->versions, v->entries, all, entry_at, entry_awaited);
}
