/* The quoting desk at noon: a long list is drawn page by page while records change under it, on the library and then,
   call for call the same, on a stand-in for the old store. Ends with 0 exactly if the library's lists are right and the
   old rule's noon list is not. */
#include "store.h"

#include <stdarg.h>
#include <stdbool.h>
#include <stdio.h>
#include <stdlib.h>
#include <string.h>
#include <unistd.h>

/* Ends the demo where it would not show what it is there to show. */
static void must(bool holds, const char *what)
{
    if (!holds) {
        fprintf(stderr, "demo: %s\n", what);
        exit(1);
    }
}

/* ---- policies: what the desk writes into a record's body */

/* The bytes that belong to the host, as this desk uses them. */
enum { BODY_INSURER = 5, BODY_PREMIUM = 8, BODY_HOLDER = 12 };

struct policy {
    uint32_t number;
    const char *holder;
    uint8_t insurer, kind;
    uint32_t day, premium;      /* start day; premium in pence */
};

static const struct policy policies[] = {
    { 101, "Ferry Lane Bakery",  1, INARUMPIT_BOUND,   321, 124000 },
    { 102, "Tide Street Cafe",   2, INARUMPIT_BOUND,   322,  86050 },
    { 103, "Harbour Chandlers",  1, INARUMPIT_WRITTEN, 330, 310000 },
    { 104, "Two Rivers School",  3, INARUMPIT_BOUND,   319, 455500 },
    { 105, "North Gate Garage",  2, INARUMPIT_SPOKEN,  326,  97525 },
    { 106, "Elm Court Flats",    3, INARUMPIT_BOUND,   335, 228000 },
    { 107, "Mill Road Dentist",  1, INARUMPIT_BOUND,   330, 141500 },
    { 108, "Old Chapel Hall",    2, INARUMPIT_WRITTEN, 328,  60000 },
    { 109, "Quay House Hotel",   3, INARUMPIT_BOUND,   324, 702000 },
};

enum { POLICIES = sizeof policies / sizeof policies[0], AT_NOON = POLICIES - 1 };

static const char *const insurer_name[] = { "", "Alder", "Beacon", "Corran" };
static const char *const kind_name[] = { "", "bound", "written", "spoken" };

static void put32(uint8_t *to, uint32_t value)
{
    for (int k = 0; k < 4; k++)
        to[k] = (uint8_t)(value >> 8 * k);
}

static uint32_t get32(const uint8_t *from)
{
    return from[0] | (uint32_t)from[1] << 8 | (uint32_t)from[2] << 16 | (uint32_t)from[3] << 24;
}

static struct record record_of(const struct policy *p)
{
    struct record r = { .number = p->number };
    put32(r.body + INARUMPIT_BODY_DAY, p->day);
    r.body[INARUMPIT_BODY_KIND] = p->kind;
    r.body[BODY_INSURER] = p->insurer;
    put32(r.body + BODY_PREMIUM, p->premium);
    memcpy(r.body + BODY_HOLDER, p->holder, strlen(p->holder));
    return r;
}

static const struct policy *policy(uint32_t number)
{
    return &policies[number - policies[0].number];
}

/* ---- records side by side */

/* A list is handed at most one record a look. */
enum { LINES = SLOTS + ENTRIES };

struct records {
    uint32_t count;
    struct record at[LINES];
};

static void add(struct records *to, const struct record *r)
{
    must(to->count < LINES, "a list has more records than looks");
    to->at[to->count++] = *r;
}

static struct records table_of(const struct store *store)
{
    struct records all = { 0 };
    for (uint32_t k = 0; k < SLOTS; k++) {
        struct record r = store->slot(k);
        if (r.number != 0)
            add(&all, &r);
    }
    return all;
}

/* The k-th record bearing the number, or NULL: a wrong list may have it twice. */
static const struct record *find(const struct records *in, uint32_t number, uint32_t k)
{
    for (uint32_t i = 0; i < in->count; i++)
        if (in->at[i].number == number && k-- == 0)
            return &in->at[i];
    return NULL;
}

/* Byte for byte, or both not there. */
static bool same(const struct record *a, const struct record *b)
{
    return a && b ? memcmp(a, b, sizeof *a) == 0 : a == b;
}

/* A list is right when it has just the records of the table that it began with (no number twice), each once. */
static bool right(const struct records *began_with, const struct records *list)
{
    for (uint32_t i = 0; i < began_with->count; i++)
        if (!same(&began_with->at[i], find(list, began_with->at[i].number, 0)))
            return false;
    return list->count == began_with->count;
}

/* ---- a day at the desk */

struct list {
    const char *name;
    uint32_t ticket, pages, looks;
    struct records began_with, lines;
};

struct day {
    const struct store *store;
    bool tells;                 /* whether the story is printed */
    struct list noon, second;
    uint32_t most, left;        /* versions on the shelf: the most at any time; at the end */
    struct records now;         /* the table at the end */
};

static const char *good = "", *bad = "", *faint = "", *plain = "";

static void colours(void)
{
    const char *no_color = getenv("NO_COLOR");
    if (!isatty(STDOUT_FILENO) || (no_color && *no_color))
        return;
    good = "\033[32m";
    bad = "\033[1;31m";
    faint = "\033[2m";
    plain = "\033[0m";
}

static void say(const struct day *d, const char *format, ...)
{
    va_list words;
    if (!d->tells)
        return;
    va_start(words, format);
    vprintf(format, words);
    va_end(words);
}

/* Tells a change, and what it did to the shelf. */
static void changed(struct day *d, const char *time, const char *what, uint32_t before)
{
    uint32_t entries = d->store->entries();
    if (entries > d->most)
        d->most = entries;
    say(d, "%s  %-61s %sshelf %u%s%s\n", time, what, faint, entries, entries > before ? ", old version kept" : "",
        plain);
}

static void enter(struct day *d, const struct policy *p)
{
    struct record r = record_of(p);
    must(d->store->insert(&r) == INARUMPIT_DONE, "a policy is not accepted");
}

static void enter_late(struct day *d, const char *time, uint32_t number)
{
    char what[80];
    uint32_t before = d->store->entries();
    enter(d, policy(number));
    snprintf(what, sizeof what, "%u %s: entered as %s", number, policy(number)->holder,
             kind_name[policy(number)->kind]);
    changed(d, time, what, before);
}

static void correct(struct day *d, const char *time, uint32_t number, uint32_t day)
{
    char what[80];
    uint32_t before = d->store->entries();
    struct policy corrected = *policy(number);
    corrected.day = day;
    struct record r = record_of(&corrected);
    must(d->store->modify(&r) == INARUMPIT_DONE, "a correction is not accepted");
    snprintf(what, sizeof what, "%u %s: start day %u corrected to %u", number, corrected.holder, policy(number)->day,
             day);
    changed(d, time, what, before);
}

static void withdraw(struct day *d, const char *time, uint32_t number, const char *why)
{
    char what[80];
    uint32_t before = d->store->entries();
    must(d->store->delete(number) == INARUMPIT_DONE, "a deletion is not accepted");
    snprintf(what, sizeof what, "%u %s: deleted%s", number, policy(number)->holder, why);
    changed(d, time, what, before);
}

static void begin(struct day *d, struct list *list, const char *time, const char *name)
{
    list->name = name;
    list->ticket = d->store->begin();
    list->began_with = table_of(d->store);
    must(list->ticket != 0, "a list cannot begin");
    say(d, "%s  %sThe %s list begins%s, ticket %u, with %u records\n", time, good, name, plain, list->ticket,
        list->began_with.count);
}

/* Draws one page: as many records as so many looks find. Whether the list goes on. */
static bool page(struct day *d, struct list *list, uint32_t budget)
{
    uint64_t returned;
    uint32_t answer, looks = 0;
    struct record r;
    list->pages++;
    say(d, "       %s list, page %u:", list->name, list->pages);
    do {
        returned = d->store->next(list->ticket, budget - looks, &r);
        answer = inarumpit_answer_of(returned);
        looks += inarumpit_looks_of(returned);
        if (answer == INARUMPIT_DONE) {
            add(&list->lines, &r);
            say(d, " %u", r.number);
        }
    } while (answer == INARUMPIT_DONE && looks < budget);
    must(answer == INARUMPIT_DONE || answer == INARUMPIT_PAUSED || answer == INARUMPIT_FINISHED, "a list is refused");
    list->looks += looks;
    say(d, "  %s(%u looks)%s\n", faint, looks, plain);
    if (answer == INARUMPIT_FINISHED)
        say(d, "       %s list finished: %u records in %u looks\n", list->name, inarumpit_handed_of(returned),
            list->looks);
    return answer != INARUMPIT_FINISHED;
}

static void rest(struct day *d, struct list *list)
{
    while (page(d, list, LINES))
        ;
}

static void play(struct day *d)
{
    const uint32_t looks = SLOTS / 2;       /* a page: two of them walk the table */
    d->store->open();
    say(d, "11:59  Policies in the table: number, holder, insurer, start day, kind, premium\n");
    for (const struct policy *p = policies; p < policies + AT_NOON; p++) {
        enter(d, p);
        say(d, "       %u  %-18s %-7s %u  %-8s %4u.%02u\n", p->number, p->holder, insurer_name[p->insurer], p->day,
            kind_name[p->kind], p->premium / 100, p->premium % 100);
    }
    begin(d, &d->noon, "12:00", "noon");
    page(d, &d->noon, looks);
    correct(d, "12:01", 107, 337);
    correct(d, "12:02", 102, 329);
    withdraw(d, "12:03", 108, "");
    enter_late(d, "12:04", 109);
    page(d, &d->noon, looks);
    say(d, "       The noon list has left the table; %u old versions wait for it on the shelf.\n", d->store->entries());
    begin(d, &d->second, "12:05", "second");
    withdraw(d, "12:06", 109, ", cover was never offered");
    page(d, &d->noon, looks);
    rest(d, &d->noon);
    rest(d, &d->second);
    d->left = d->store->entries();
    d->now = table_of(d->store);
    say(d, "       Most old versions on the shelf at any time: %u. Now: %u.\n", d->most, d->left);
}

/* ---- the lists beside the table */

/* Start day and kind in so many columns, or a dash. */
static void cell(const struct record *r, int width)
{
    char text[24] = "-";
    if (r)
        snprintf(text, sizeof text, "%u %s", get32(r->body + INARUMPIT_BODY_DAY),
                 kind_name[r->body[INARUMPIT_BODY_KIND]]);
    printf("%-*s", width, text);
}

/* The noon list beside the table at noon and the table now, a number in a line; wrong lines are marked. */
static void show_noon(const struct day *d)
{
    const struct records *began_with = &d->noon.began_with, *lines = &d->noon.lines;
    printf("\n       %-24s%-16s%-16s%s\n", "start day and kind", "table at noon", "noon list", "table now");
    for (const struct policy *p = policies; p < policies + POLICIES; p++)
        for (uint32_t k = 0; k == 0 || find(began_with, p->number, k) || find(lines, p->number, k); k++) {
            const struct record *was = find(began_with, p->number, k), *listed = find(lines, p->number, k);
            bool alike = same(was, listed);
            printf("       %u  %-18s ", p->number, p->holder);
            cell(was, 16);
            printf("%s", alike ? good : bad);
            cell(listed, 16);
            printf("%s", plain);
            cell(find(&d->now, p->number, k), alike ? 0 : 16);
            if (!alike)
                printf("%s<-- WRONG%s", bad, plain);
            printf("\n");
        }
}

static void show_missing(const struct list *list)
{
    for (uint32_t k = 0; k < list->began_with.count; k++) {
        uint32_t number = list->began_with.at[k].number;
        if (!find(&list->lines, number, 0))
            printf("       %sThe %s list is short of %u.%s\n", bad, list->name, number, plain);
    }
}

static bool both_right(const struct day *d)
{
    return right(&d->noon.began_with, &d->noon.lines) && right(&d->second.began_with, &d->second.lines);
}

int main(void)
{
    struct day ours = { .store = &library, .tells = true };
    struct day old = { .store = &old_store };
    struct day put_right = { .store = &old_put_right };

    colours();
    printf("THE QUOTING DESK, on Inarumpit: a table of %d slots, a shelf of %d entries, %d lists at a time\n\n", SLOTS,
           ENTRIES, LISTS);
    play(&ours);
    show_noon(&ours);
    must(both_right(&ours), "a list differs from the table that it began with");
    must(ours.left == 0, "the shelf is not empty after the lists");
    printf("       %sThe noon list is the table at noon, byte for byte; the second list is the table at 12:05.%s\n",
           good, plain);

    play(&old);
    printf("\nTHE SAME CALLS ON THE OLD STORE'S RULE (a stand-in: host/old.c)\n\n"
           "       A list gives its position back when it leaves the table. The second list takes it at 12:05,\n"
           "       and what the shelf keeps for the second list is handed to the noon list.\n");
    show_noon(&old);
    must(!right(&old.noon.began_with, &old.noon.lines), "the old rule shows no wrong line");
    printf("       %sThe noon list declares cover that was never offered.%s\n", bad, plain);
    show_missing(&old.second);

    play(&put_right);
    must(both_right(&put_right), "with its rule put right the stand-in is still wrong");
    printf("       %sWith that one rule put right the stand-in's lists are right too.%s\n", faint, plain);
    return 0;
}
