/* sample NAME FOLDER: writes a store for the inspector as desk, table and shelf into the folder, and all in one as store.
   NAME is fresh, running, full, large, or a number: then its bytes are hostile, drawn by that number. */
#include <stdbool.h>
#include <stdio.h>
#include <stdlib.h>
#include <string.h>

#include "../second/chance.h"
#include "inarumpit.h"

enum { MOST_SLOTS = INARUMPIT_SLOTS_MAX, MOST_ENTRIES = 8 * MOST_SLOTS };

static uint8_t memory[INARUMPIT_STORE_BYTES(MOST_SLOTS, MOST_ENTRIES)];
static struct inarumpit_store store;

static void must(bool holds, const char *what)
{
    if (!holds) {
        fprintf(stderr, "sample: %s\n", what);
        exit(1);
    }
}

static void done(uint64_t returned)
{
    must(inarumpit_answer_of(returned) == INARUMPIT_DONE, inarumpit_text(returned));
}

/* ---- a desk's day, in short */

static void open_store(uint32_t scans, uint32_t slots, uint32_t entries)
{
    store = inarumpit_store_in(memory, sizeof memory, slots, entries);
    done(inarumpit_store_open(&store, scans));
}

static const uint8_t *body(uint32_t day, uint8_t kind, const char *holder)
{
    static uint8_t bytes[INARUMPIT_BODY_SIZE];
    memset(bytes, 0, sizeof bytes);
    inarumpit_put32(bytes + INARUMPIT_BODY_DAY, day);
    bytes[INARUMPIT_BODY_KIND] = kind;
    memcpy(bytes + INARUMPIT_BODY_OWN, holder, strlen(holder));
    return bytes;
}

static uint32_t begin(void)
{
    uint64_t returned = inarumpit_store_begin(&store);
    done(returned);
    return inarumpit_ticket_of(returned);
}

/* So many looks of a scan that has more to make. */
static void look(uint32_t ticket, uint32_t looks)
{
    uint8_t out[INARUMPIT_OUT_SIZE];
    while (looks > 0) {
        uint64_t returned = inarumpit_store_next(&store, ticket, looks, out);
        must(inarumpit_answer_of(returned) != INARUMPIT_FINISHED, "a scan is to run on");
        looks -= inarumpit_looks_of(returned);
    }
}

static void fresh(void)
{
    open_store(4, 8, 32);
}

/* Three scans, one of them on the shelf, and old versions that one, two or all of them await. */
static void running(void)
{
    static const char *const holders[] = { "Ferry Lane Bakery", "Tide Street Cafe", "Harbour Chandlers", "Two Rivers School",
                                           "North Gate Garage", "Elm Court Flats", "Mill Road Dentist", "Old Chapel Hall",
                                           "Quay House Hotel" };
    open_store(4, 12, 24);
    for (uint32_t k = 0; k < 9; k++)
        done(inarumpit_store_insert(&store, 101 + k, body(319 + 2 * k, (uint8_t)(1 + k % 3), holders[k])));
    uint32_t noon = begin();
    look(noon, 4);
    done(inarumpit_store_modify(&store, 106, body(340, INARUMPIT_BOUND, holders[5])));
    uint32_t second = begin();
    look(second, 2);
    done(inarumpit_store_modify(&store, 108, body(341, INARUMPIT_WRITTEN, holders[7])));
    begin();
    done(inarumpit_store_delete(&store, 105));
    done(inarumpit_store_insert(&store, 110, body(350, INARUMPIT_SPOKEN, "Sluice Row Florist")));
    done(inarumpit_store_modify(&store, 101, body(342, INARUMPIT_BOUND, holders[0])));
    look(noon, 10);
    look(second, 3);
}

/* Table, shelf and positions all taken: insert answers 7, modify 8, begin 9. */
static void full(void)
{
    open_store(2, 6, 4);
    for (uint32_t k = 0; k < 6; k++)
        done(inarumpit_store_insert(&store, 201 + k, body(100 + k, INARUMPIT_BOUND, "")));
    begin();
    begin();
    for (uint32_t k = 0; k < 4; k++)
        done(inarumpit_store_modify(&store, 201 + k, body(200 + k, INARUMPIT_WRITTEN, "")));
    must(inarumpit_store_insert(&store, 300, body(1, INARUMPIT_BOUND, "")) == INARUMPIT_TABLE_FULL
             && inarumpit_store_delete(&store, 206) == INARUMPIT_SHELF_FULL
             && inarumpit_store_begin(&store) == INARUMPIT_NO_POSITION, "the store is to be full");
}

/* Sixteen scans over many records. */
static void large(void)
{
    struct chance chance = { 1 };
    open_store(16, MOST_SLOTS, MOST_ENTRIES);
    for (uint32_t k = 0; k < MOST_SLOTS - 2000; k++)
        done(inarumpit_store_insert(&store, k + 1, body(k % 365, INARUMPIT_BOUND, "")));
    for (uint32_t scan = 0; scan < 16; scan++) {
        uint32_t ticket = begin();
        for (uint32_t k = 0; k < 200; k++)
            done(inarumpit_store_modify(&store, between(&chance, 6000, 9000), body(k, INARUMPIT_SPOKEN, "")));
        look(ticket, scan < 12 ? 7000 + 10000 * scan : 3000 * (scan - 11));
    }
}

/* ---- hostile bytes */

static void spoil(struct chance *chance, uint8_t *bytes, size_t len)
{
    for (size_t k = 0; k < len; k++)
        bytes[k] = (uint8_t)draw(chance);
}

static void hostile(uint32_t seed)
{
    struct chance chance = { seed };
    running();
    switch (seed % 8) {
    case 0:     /* any bytes, any lengths */
        spoil(&chance, memory, 3 * 4096);
        store.desk_len = below(&chance, 2 * INARUMPIT_DESK_SIZE);
        store.table_len = below(&chance, 4096);
        store.shelf_len = below(&chance, 4096);
        break;
    case 1:     /* right lengths, any bytes */
        spoil(&chance, memory, inarumpit_store_bytes(12, 24));
        break;
    case 2:     /* a few bytes of the desk */
        for (uint32_t k = between(&chance, 1, 4); k > 0; k--)
            store.desk[below(&chance, INARUMPIT_DESK_SIZE)] ^= (uint8_t)(1u << below(&chance, 8));
        break;
    case 3:     /* a file cut short or too long */
        store.desk_len -= one_in(&chance, 2) ? between(&chance, 1, 1088) : 0;
        store.table_len -= one_in(&chance, 2) ? between(&chance, 1, 768) : 0;
        store.shelf_len += one_in(&chance, 2) ? between(&chance, 1, 768) : 0;
        break;
    case 4:     /* a right head before any cards */
        spoil(&chance, store.desk + INARUMPIT_DESK_CARDS, INARUMPIT_DESK_SIZE - INARUMPIT_DESK_CARDS);
        break;
    case 5:     /* empty files */
        store.desk_len *= one_in(&chance, 2);
        store.table_len *= one_in(&chance, 2);
        store.shelf_len *= one_in(&chance, 2);
        break;
    case 6:     /* a head of huge numbers */
        for (uint32_t k = 0; k < 4; k++)
            if (one_in(&chance, 2))
                inarumpit_put32(store.desk + 4 * k, UINT32_MAX - below(&chance, 3));
        break;
    default:    /* a sound desk over any records */
        spoil(&chance, store.table, store.table_len + store.shelf_len);
    }
}

/* ---- to files */

static void add(FILE *file, const uint8_t *bytes, size_t len)
{
    must(fwrite(bytes, 1, len, file) == len, "cannot write");
}

static FILE *create(const char *folder, const char *name)
{
    char path[512];
    snprintf(path, sizeof path, "%s/%s", folder, name);
    FILE *file = fopen(path, "wb");
    must(file != NULL, "cannot create a file in the folder");
    return file;
}

static void write_files(const char *folder)
{
    const struct { const char *name; const uint8_t *bytes; size_t len; } part[] = {
        { "desk", store.desk, store.desk_len }, { "table", store.table, store.table_len },
        { "shelf", store.shelf, store.shelf_len }
    };
    FILE *whole = create(folder, "store");
    for (int k = 0; k < 3; k++) {
        FILE *file = create(folder, part[k].name);
        add(file, part[k].bytes, part[k].len);
        add(whole, part[k].bytes, part[k].len);
        must(fclose(file) == 0, "cannot write");
    }
    must(fclose(whole) == 0, "cannot write");
}

int main(int count, char **words)
{
    const struct { const char *name; void (*make)(void); } known[] = {
        { "fresh", fresh }, { "running", running }, { "full", full }, { "large", large }
    };
    must(count == 3, "usage: sample NAME FOLDER");
    size_t k = 0;
    while (k < 4 && strcmp(words[1], known[k].name) != 0)
        k++;
    if (k < 4)
        known[k].make();
    else
        hostile((uint32_t)strtoul(words[1], NULL, 10));
    write_files(words[2]);
    return 0;
}
