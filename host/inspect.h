/* A store as the inspector sees it: three buffers from files, of any bytes and any length. */
#ifndef HOST_INSPECT_H
#define HOST_INSPECT_H

#include <stdbool.h>
#include <stdint.h>

#include "inarumpit.h"

struct view {
    struct inarumpit_store store;       /* the bytes of the files and not one more */
    const char *desk_name, *table_name, *shelf_name;
    uint32_t answer;                    /* what the library says to it: 0, 1 or 2 */
    char why[96];                       /* with 2: the first rule that the desk breaks */
    bool has_desk;                      /* the desk's length is right: head, masks and scans can be read */
    uint32_t n, slots_said, entries_said, last;     /* the desk's own T and R: places are read with these */
    uint64_t stable, active, local;
    uint32_t slots, entries;            /* whole ones in the files; no more than a store can have */
    uint32_t records, versions;         /* of them in use */
    struct inarumpit_scan scan[INARUMPIT_SCANS_MAX];
    uint32_t scans;
};

/* Fills in what the buffers in view->store say. */
void view_fill(struct view *view);

/* A slot or an entry. */
const uint8_t *slot_at(const struct view *view, uint32_t slot);
const uint8_t *entry_at(const struct view *view, uint32_t entry);

/* The positions whose scans have still to hand it out, a bit for each. */
uint64_t slot_awaited(const struct view *view, uint32_t slot);
uint64_t entry_awaited(const struct view *view, uint32_t entry);

/* The versions on the shelf that the scan at this position has still to hand out. */
uint32_t versions_for(const struct view *view, uint32_t position);

/* The positions of a mask as "0-3 7": as many as there is room for, then "..". */
enum { POSITIONS_TEXT = 192 };
void positions_text(uint64_t mask, char *text, size_t size);

/* Where the scan's next look is: "slot 3", "entry 0", "the end"; "beyond" it only in a refused store. */
void place_text(const struct view *view, const struct inarumpit_scan *scan, char *text, size_t size);

/* What the library says to the store, one sentence. */
void verdict_text(const struct view *view, char *text, size_t size);

/* The two ways to show it, on standard output. */
void show_text(const struct view *view, bool all);
void show_svg(const struct view *view);

#endif
