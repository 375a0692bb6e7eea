/* inarumpit-inspect: reads the buffers of a store from files and shows what is in them, to read or as a picture. Takes any
   bytes. Ends with 0 where the library accepts the store, 1 where it would refuse it, 2 where there is nothing to show. */
#include "inspect.h"

#include <errno.h>
#include <stdarg.h>
#include <stdio.h>
#include <stdlib.h>
#include <string.h>

static const char help[] =
    "usage: inarumpit-inspect [--all] [--svg] DESK TABLE SHELF\n"
    "       inarumpit-inspect [--all] [--svg] STORE\n"
    "\n"
    "Shows a store: head, masks by position, the scans that run, records, old versions.\n"
    "\n"
    "  DESK TABLE SHELF  the three buffers, a file each\n"
    "  STORE             the three in one file, one behind the other, as inarumpit_store_in lays them\n"
    "  --all             every record and every old version, not the first 20\n"
    "  --svg             a picture instead: make it by inarumpit-inspect --svg .. >store.svg\n"
    "  --version, --help\n"
    "\n"
    "Files come from your program, between two calls: fwrite(desk, 1, desk_len, file), and so on.\n"
    "From a program under gdb: dump binary memory store.desk desk desk+1088\n"
    "\n"
    "Ends with 0: the library accepts the store. 1: it would refuse it, by the answer that is\n"
    "shown; what can be shown is. 2: a file cannot be read, or the command is not as above.\n";

/* The most bytes of each buffer; a file that is longer is read this far and one byte more. */
enum {
    TABLE_MOST = INARUMPIT_SLOTS_MAX * INARUMPIT_SLOT_SIZE,
    SHELF_MOST = INARUMPIT_ENTRIES_MAX * INARUMPIT_SLOT_SIZE,
    STORE_MOST = INARUMPIT_DESK_SIZE + TABLE_MOST + SHELF_MOST
};

static void fail(const char *format, ...)
{
    va_list words;
    fprintf(stderr, "inarumpit-inspect: ");
    va_start(words, format);
    vfprintf(stderr, format, words);
    va_end(words);
    fprintf(stderr, "\n");
    exit(2);
}

/* Memory of just that length; NULL for none. */
static uint8_t *bytes(uint8_t *old, size_t len)
{
    if (len == 0) {
        free(old);
        return NULL;
    }
    uint8_t *got = realloc(old, len);
    if (!got)
        fail("no memory for %zu bytes", len);
    return got;
}

/* The bytes of a file. */
static uint8_t *read_file(const char *name, size_t most, size_t *len)
{
    FILE *file = fopen(name, "rb");
    uint8_t *all = NULL;
    size_t room = 0;
    *len = 0;
    if (!file)
        fail("%s: %s", name, strerror(errno));
    while (*len == room && room <= most) {
        room = room == 0 ? INARUMPIT_DESK_SIZE + 1 : 2 * room < most ? 2 * room : most + 1;
        all = bytes(all, room);
        *len += fread(all + *len, 1, room - *len, file);
        if (ferror(file))
            fail("%s: %s", name, strerror(errno));
    }
    fclose(file);
    return bytes(all, *len);
}

/* One part of the store's one file, in memory of its own. */
static uint8_t *part(const uint8_t *all, size_t from, size_t len)
{
    uint8_t *copy = bytes(NULL, len);
    if (copy)
        memcpy(copy, all + from, len);
    return copy;
}

static size_t least(size_t a, size_t b)
{
    return a < b ? a : b;
}

/* Where the table ends in one file the desk says: so many slots, or as many as there are. */
static void read_one(struct view *v, const char *name)
{
    size_t len;
    uint8_t *all = read_file(name, STORE_MOST, &len);
    struct inarumpit_store *store = &v->store;
    store->desk_len = least(len, INARUMPIT_DESK_SIZE);
    size_t said = store->desk_len == INARUMPIT_DESK_SIZE ? inarumpit_get32(all + INARUMPIT_DESK_T) : 0;
    store->table_len = least(len - store->desk_len, INARUMPIT_SLOT_SIZE * least(said, INARUMPIT_SLOTS_MAX));
    store->shelf_len = len - store->desk_len - store->table_len;
    store->desk = part(all, 0, store->desk_len);
    store->table = part(all, store->desk_len, store->table_len);
    store->shelf = part(all, store->desk_len + store->table_len, store->shelf_len);
    v->desk_name = v->table_name = v->shelf_name = name;
    free(all);
}

static void read_three(struct view *v, char **names)
{
    v->store.desk = read_file(v->desk_name = names[0], INARUMPIT_DESK_SIZE, &v->store.desk_len);
    v->store.table = read_file(v->table_name = names[1], TABLE_MOST, &v->store.table_len);
    v->store.shelf = read_file(v->shelf_name = names[2], SHELF_MOST, &v->store.shelf_len);
}

int main(int count, char **words)
{
    static struct view view;
    bool all = false, svg = false;
    int at = 1;
    for (; at < count && words[at][0] == '-'; at++) {
        if (strcmp(words[at], "--all") == 0)
            all = true;
        else if (strcmp(words[at], "--svg") == 0)
            svg = true;
        else if (strcmp(words[at], "--help") == 0)
            return printf("%s", help) < 0 ? 2 : 0;
        else if (strcmp(words[at], "--version") == 0)
            return printf("inarumpit-inspect %s\n", INARUMPIT_VERSION) < 0 ? 2 : 0;
        else
            fail("no such option: %s; see --help", words[at]);
    }
    if (count - at == 1)
        read_one(&view, words[at]);
    else if (count - at == 3)
        read_three(&view, words + at);
    else
        fail("one file or three, DESK TABLE SHELF; see --help");
    view_fill(&view);
    if (svg)
        show_svg(&view);
    else
        show_text(&view, all);
    if (fflush(stdout) != 0 || ferror(stdout))
        fail("cannot write: %s", strerror(errno));
    free(view.store.desk);
    free(view.store.table);
    free(view.store.shelf);
    return view.answer == INARUMPIT_DONE ? 0 : 1;
}
