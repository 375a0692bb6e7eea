/* The store as a picture: how far each scan is, then table and shelf as cells, with a pin where a scan looks next. A cell
   is one slot, or a share of many where there are more slots than cells. */
#include "inspect.h"

#include <inttypes.h>
#include <stdio.h>

enum {
    WIDTH = 1060, LEFT = 70, GRID = 960,    /* the page; row labels stand left of the cells */
    TOP = 118,                              /* title, verdict and legend */
    LANE = 24, LANES_HEAD = 46,
    PIN = 16, GRID_HEAD = 40, FOOT = 16,
    MOST_CELLS = 1024,
    BAR_AT = 262, BAR_WIDE = 440
};

static const char style[] =
    "  <style>\n"
    "    text { font-family: 'DejaVu Sans', Verdana, sans-serif; font-size: 12px; fill: #222 }\n"
    "    .title { font-size: 16px; font-weight: bold } .head { font-size: 13px; font-weight: bold }\n"
    "    .faint { fill: #667 } .small { font-size: 10px; fill: #667 } .no { fill: #b00020; font-weight: bold }\n"
    "    .e { fill: #f1f4f7; stroke: #ccd4dc } .u { fill: #4878a8 } .a { fill: #f2a93b } .o { fill: none; stroke: #ccd4dc }\n"
    "    .pin { fill: #b00020; stroke: #fff; stroke-width: 1 } .tag { font-size: 10px; font-weight: bold; fill: #b00020 }\n"
    "    .n { font-size: 11px; text-anchor: middle } .on { fill: #fff } .m { font-size: 9px; text-anchor: middle }\n"
    "    .t { fill: #dbe7f3 } .s { fill: #e3f0df } .past { fill: #4878a8 }\n"
    "  </style>\n";

/* ---- cells */

/* Table or shelf, laid out. */
struct grid {
    const struct view *view;
    const char *name, *one;
    uint32_t count, used, first_place;      /* slots; of them in use; the place of the first */
    const uint8_t *(*at)(const struct view *, uint32_t);
    uint64_t (*awaited)(const struct view *, uint32_t);
    uint32_t per, cells, columns, rows;     /* slots to a cell; and so on */
    int wide, high, top;
};

static void lay_out(struct grid *g, int top)
{
    g->per = g->count > MOST_CELLS ? (g->count + MOST_CELLS - 1) / MOST_CELLS : 1;
    g->cells = (g->count + g->per - 1) / g->per;
    g->columns = g->cells <= 8 ? 8 : g->cells <= 64 ? 16 : g->cells <= 256 ? 32 : 64;
    g->rows = (g->cells + g->columns - 1) / g->columns;
    g->wide = GRID / (int)g->columns;
    g->high = g->columns <= 16 ? 36 : g->columns == 32 ? 22 : 14;
    g->top = top;
}

static int bottom(const struct grid *g)
{
    return g->top + GRID_HEAD + (int)g->rows * (g->high + PIN);
}

static int cell_x(const struct grid *g, uint32_t cell)
{
    return LEFT + (int)(cell % g->columns) * g->wide;
}

static int cell_y(const struct grid *g, uint32_t cell)
{
    return g->top + GRID_HEAD + PIN + (int)(cell / g->columns) * (g->high + PIN);
}

/* The height of a share of a cell: none of it 0, any of it 2 at least. */
static int share(const struct grid *g, uint32_t part, uint32_t whole)
{
    int high = (int)((uint64_t)part * (uint64_t)g->high / whole);
    return part > 0 && high < 2 ? 2 : high;
}

static void rect(const char *kind, int x, int y, int wide, int high)
{
    printf("  <rect class=\"%s\" x=\"%d\" y=\"%d\" width=\"%d\" height=\"%d\"/>\n", kind, x, y, wide, high);
}

/* Number and positions in a cell that is one slot. */
static void show_words(const struct grid *g, uint32_t slot, int x, int y)
{
    uint32_t number = inarumpit_number(g->at(g->view, slot));
    uint64_t awaited = g->awaited(g->view, slot);
    char positions[POSITIONS_TEXT];
    if (number == 0)
        return;
    positions_text(awaited, positions, g->wide > 60 ? 20 : 12);
    printf("  <text class=\"n%s\" x=\"%d\" y=\"%d\">%" PRIu32 "</text>\n", awaited ? "" : " on", x + g->wide / 2,
           y + (awaited ? 15 : 22), number);
    if (awaited)
        printf("  <text class=\"m\" x=\"%d\" y=\"%d\">for %s</text>\n", x + g->wide / 2, y + 28, positions);
}

static void show_cell(const struct grid *g, uint32_t cell)
{
    int x = cell_x(g, cell), y = cell_y(g, cell);
    uint32_t first = cell * g->per, end = first + g->per < g->count ? first + g->per : g->count;
    uint32_t used = 0, awaited = 0;
    for (uint32_t k = first; k < end; k++) {
        used += inarumpit_number(g->at(g->view, k)) != 0;
        awaited += g->awaited(g->view, k) != 0;
    }
    int used_high = share(g, used, end - first), awaited_high = share(g, awaited, end - first);
    if (used < end - first)
        rect("e", x, y, g->wide, g->high);
    if (used > awaited)
        rect("u", x, y + g->high - used_high, g->wide, used_high - (used > 0 ? awaited_high : 0));
    if (awaited > 0)
        rect("a", x, y + g->high - awaited_high, g->wide, awaited_high);
    rect("o", x, y, g->wide, g->high);
    if (g->per == 1 && g->columns <= 16)
        show_words(g, first, x, y);
}

/* ---- pins */

/* The scans of a grid by falling place. */
static uint32_t by_place(const struct grid *g, const struct inarumpit_scan **sorted)
{
    uint32_t count = 0;
    for (uint32_t k = 0; k < g->view->scans; k++) {
        const struct inarumpit_scan *scan = &g->view->scan[k];
        uint32_t at = count;
        if (scan->place < g->first_place || scan->place - g->first_place >= g->count)
            continue;
        for (; at > 0 && sorted[at - 1]->place < scan->place; at--)
            sorted[at] = sorted[at - 1];
        sorted[at] = scan;
        count++;
    }
    return count;
}

static int tag_width(int letters)
{
    return 7 * letters;
}

/* The tickets of so many scans in one cell; or how many there are; or nothing, where there is no room. */
static void show_tag(const struct inarumpit_scan **scan, uint32_t count, int x, int y, int room)
{
    char text[64];
    int len = 0;
    for (uint32_t k = 0; k < count && len < (int)sizeof text; k++)
        len += snprintf(text + len, sizeof text - (size_t)len, "%s%" PRIu32, k > 0 ? ", " : "", scan[k]->ticket);
    if (count > 1 && (len >= (int)sizeof text || tag_width(len) > room))
        len = snprintf(text, sizeof text, "%" PRIu32 " scans", count);
    if (tag_width(len) <= room)
        printf("  <text class=\"tag\" x=\"%d\" y=\"%d\">%s</text>\n", x, y, text);
}

/* From the right to the left, so that a tag ends before the next pin. */
static void show_pins(const struct grid *g)
{
    const struct inarumpit_scan *sorted[INARUMPIT_SCANS_MAX];
    uint32_t count = by_place(g, sorted), row = UINT32_MAX, together;
    int free_to = 0;
    for (uint32_t k = 0; k < count; k += together) {
        uint32_t cell = (sorted[k]->place - g->first_place) / g->per;
        int x = cell_x(g, cell) + g->wide / 2, y = cell_y(g, cell);
        together = 1;
        while (k + together < count && (sorted[k + together]->place - g->first_place) / g->per == cell)
            together++;
        if (cell / g->columns != row)
            free_to = WIDTH;
        row = cell / g->columns;
        printf("  <path class=\"pin\" d=\"M%d %dh12l-6 10z\"/>\n", x - 6, y - 9);
        show_tag(sorted + k, together, x + 8, y - 3, free_to - x - 10);
        free_to = x - 8;
    }
}

static void show_grid(const struct grid *g)
{
    printf("  <text class=\"head\" x=\"20\" y=\"%d\">%s</text>\n", g->top + 24, g->name);
    printf("  <text class=\"faint\" x=\"%d\" y=\"%d\">%" PRIu32 " of %" PRIu32 " %s in use", LEFT + 20, g->top + 24, g->used,
           g->count, g->one);
    if (g->per > 1)
        printf("; a cell stands for %" PRIu32 " of them, its colours for their shares", g->per);
    printf("</text>\n");
    for (uint32_t row = 0; row < g->rows; row++)
        printf("  <text class=\"small\" x=\"%d\" y=\"%d\" text-anchor=\"end\">%" PRIu32 "</text>\n", LEFT - 8,
               cell_y(g, row * g->columns) + g->high / 2 + 4, row * g->columns * g->per);
    for (uint32_t cell = 0; cell < g->cells; cell++)
        show_cell(g, cell);
    show_pins(g);
}

/* ---- scans */

/* Where a place lies on the bar: each part of it has a quarter at least. */
static int bar_x(const struct view *v, uint32_t place)
{
    uint64_t slots = v->slots_said, all = slots + v->entries_said, at = place < all ? place : all;
    uint64_t table = all == 0 ? BAR_WIDE / 2 : BAR_WIDE * slots / all;
    table = table < BAR_WIDE / 4 ? BAR_WIDE / 4 : table > BAR_WIDE * 3 / 4 ? BAR_WIDE * 3 / 4 : table;
    return BAR_AT + (int)(at < slots ? at * table / slots
                          : at > slots ? table + (at - slots) * (BAR_WIDE - table) / v->entries_said : table);
}

static void show_scan(const struct view *v, const struct inarumpit_scan *scan, int y)
{
    uint64_t owed = inarumpit_store_owed(&v->store, scan->ticket);
    int table_end = bar_x(v, v->slots_said), at = bar_x(v, scan->place);
    char place[32];
    place_text(v, scan, place, sizeof place);
    printf("  <text x=\"20\" y=\"%d\">ticket %" PRIu32 "</text>\n", y + 13, scan->ticket);
    printf("  <text class=\"faint\" x=\"160\" y=\"%d\">position %" PRIu32 "</text>\n", y + 13, scan->position);
    rect("t", BAR_AT, y, table_end - BAR_AT, 16);
    rect("s", table_end, y, BAR_AT + BAR_WIDE - table_end, 16);
    rect("past", BAR_AT, y + 4, at - BAR_AT, 8);
    printf("  <path class=\"pin\" d=\"M%d %dh12l-6 10z\"/>\n", at - 6, y - 2);
    printf("  <text class=\"faint\" x=\"%d\" y=\"%d\">next: %s; handed %" PRIu32, BAR_AT + BAR_WIDE + 14, y + 13, place,
           scan->handed);
    if (inarumpit_answer_of(owed) == INARUMPIT_DONE)
        printf(", owed %" PRIu32, inarumpit_owed_of(owed));
    printf("</text>\n");
}

static void show_scans(const struct view *v)
{
    printf("  <text class=\"head\" x=\"20\" y=\"%d\">Scans</text>\n", TOP + 24);
    printf("  <text class=\"faint\" x=\"%d\" y=\"%d\">%" PRIu32 " run</text>\n", LEFT + 20, TOP + 24, v->scans);
    if (v->scans == 0)
        return;
    printf("  <text class=\"small\" x=\"%d\" y=\"%d\">table</text>\n", BAR_AT, TOP + 38);
    printf("  <text class=\"small\" x=\"%d\" y=\"%d\">shelf</text>\n", bar_x(v, v->slots_said), TOP + 38);
    for (uint32_t k = 0; k < v->scans; k++)
        show_scan(v, &v->scan[k], TOP + LANES_HEAD + LANE * (int)k);
}

/* ---- the page */

static void show_key(int x, const char *kind, const char *words)
{
    rect(kind, x, 76, 22, 16);
    printf("  <text x=\"%d\" y=\"89\">%s</text>\n", x + 30, words);
}

static void show_top(const struct view *v)
{
    char verdict[256];
    verdict_text(v, verdict, sizeof verdict);
    printf("  <text class=\"title\" x=\"20\" y=\"30\">A store");
    if (v->has_desk)
        printf(": N = %" PRIu32 ", T = %" PRIu32 ", R = %" PRIu32 ", last ticket %" PRIu32, v->n, v->slots_said,
               v->entries_said, v->last);
    printf("</text>\n  <text class=\"%s\" x=\"20\" y=\"54\">%s</text>\n", v->answer == INARUMPIT_DONE ? "faint" : "no",
           verdict);
    show_key(20, "e", "empty");
    show_key(120, "u", "in use");
    show_key(220, "a", "in use, and a running scan has still to hand it out");
    printf("  <path class=\"pin\" d=\"M600 79h12l-6 10z\"/>\n");
    printf("  <text x=\"620\" y=\"89\">where a scan looks next, with its ticket</text>\n");
}

void show_svg(const struct view *v)
{
    struct grid table = { .view = v, .name = "Table", .one = "slots", .count = v->slots, .used = v->records,
                          .at = slot_at, .awaited = slot_awaited };
    struct grid shelf = { .view = v, .name = "Shelf", .one = "entries", .count = v->entries, .used = v->versions,
                          .first_place = v->slots_said, .at = entry_at, .awaited = entry_awaited };
    lay_out(&table, TOP + LANES_HEAD + LANE * (int)v->scans);
    lay_out(&shelf, bottom(&table));
    int high = bottom(&shelf) + FOOT;
    printf("<svg xmlns=\"http://www.w3.org/2000/svg\" viewBox=\"0 0 %d %d\" width=\"%d\" height=\"%d\">\n", WIDTH, high, WIDTH,
           high);
    printf("  <title>A store of %" PRIu32 " records</title>\n%s", v->records, style);
    printf("  <rect width=\"%d\" height=\"%d\" fill=\"#fff\"/>\n", WIDTH, high);
    show_top(v);
    show_scans(v);
    show_grid(&table);
    show_grid(&shelf);
    printf("</svg>\n");
}
