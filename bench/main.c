/* bench FILES TURNS [PAGE]: every store does every piece of work in turn, TURNS times over; the least cost is kept.
   Written: work,T,store,unit,value; costs are of one call, of a list for each record. */
#include "clock.h"
#include "work.h"

#include <stdio.h>
#include <stdlib.h>

enum { CHANGES = 16, AGAIN = 2, KEPT_SLOTS = 1024, KEPT_MOST = 10 };

static const struct store *const stores[] = {
#ifdef WITH_LIBRARY
    &library,
#endif
    &second, &sqlite, &lmdb
};
enum { STORES = sizeof stores / sizeof stores[0] };

const char *files;
static uint8_t body[BODY];

void fail(const char *who, const char *what)
{
    fprintf(stderr, "bench: %s: %s\n", who, what);
    exit(1);
}

/* Distinct numbers, evenly over the table and others in each turn. */
static void spread(uint32_t *numbers, int count, uint32_t slots, int turn)
{
    uint32_t apart = slots / (uint32_t)count;
    for (int i = 0; i < count; i++)
        numbers[i] = 1 + (uint32_t)i * apart + (uint32_t)turn * 7 % apart;
}

/* ---- the work; each leaves the store without scans */

static double modifies(const struct store *s, uint32_t slots, int turn, bool snapshot, bool together)
{
    uint32_t numbers[CHANGES];
    spread(numbers, CHANGES, slots, turn);
    body[OWN]++;
    if (snapshot)
        s->begin(0);
    uint64_t from = clock_now();
    s->modify(numbers, CHANGES, body, together);
    uint64_t to = clock_now();
    s->drop();
    return (double)(to - from) / CHANGES;
}

static double modify_alone(const struct store *s, uint32_t slots, int turn)
{
    return modifies(s, slots, turn, false, false);
}

static double modify_under(const struct store *s, uint32_t slots, int turn)
{
    return modifies(s, slots, turn, true, false);
}

static double together_alone(const struct store *s, uint32_t slots, int turn)
{
    return modifies(s, slots, turn, false, true);
}

static double together_under(const struct store *s, uint32_t slots, int turn)
{
    return modifies(s, slots, turn, true, true);
}

static double lists(const struct store *s, uint32_t slots, int turn)
{
    (void)turn;
    uint64_t from = clock_now();
    s->begin(0);
    struct list l = s->list(0, s->draws);
    uint64_t to = clock_now();
    s->drop();
    if (l.records != (s->draws < slots ? s->draws : slots))
        fail(s->name, "a list of another length");
    return (double)(to - from) / l.records;
}

static double begins(const struct store *s, uint32_t slots, int turn)
{
    (void)slots;
    (void)turn;
    uint64_t from = clock_now();
    for (int i = 0; i < SCANS; i++)
        s->begin(i);
    uint64_t to = clock_now();
    s->drop();
    return (double)(to - from) / SCANS;
}

static const struct {
    const char *name;
    double (*cost)(const struct store *s, uint32_t slots, int turn);
} works[] = {
    { "modify", modify_alone },
    { "modify under a snapshot", modify_under },
    { "modify 16 together", together_alone },
    { "modify 16 together under a snapshot", together_under },
    { "list for each record", lists },
    { "begin", begins },
};
enum { WORKS = sizeof works / sizeof works[0] };

static void measure(uint32_t slots, int turns)
{
    static double least[WORKS][STORES];
    for (int i = 0; i < STORES; i++)
        stores[i]->open(slots, body);
    for (int turn = 0; turn < turns; turn++)
        for (int w = 0; w < WORKS; w++)
            for (int i = 0; i < STORES * AGAIN; i++) {
                double cost = works[w].cost(stores[i / AGAIN], slots, turn), *kept = &least[w][i / AGAIN];
                if (turn + i % AGAIN == 0 || cost < *kept)
                    *kept = cost;
            }
    for (int w = 0; w < WORKS; w++)
        for (int i = 0; i < STORES; i++)
            printf("%s,%u,%s,%s,%.1f\n", works[w].name, slots, stores[i]->name, clock_unit(), least[w][i]);
    for (int i = 0; i < STORES; i++)
        stores[i]->close();
}

/* Bytes kept after changes of that many records under scans begun before them; the scans then list what was there. */
static void keeps(const struct store *s, int changes, int scans)
{
    uint32_t numbers[KEPT_MOST];
    uint64_t before = (uint64_t)KEPT_SLOTS * (KEPT_SLOTS + 1) / 2 * body[OWN];
    spread(numbers, changes, KEPT_SLOTS, 0);
    s->open(KEPT_SLOTS, body);
    for (int i = 0; i < scans; i++)
        s->begin(i);
    body[OWN]++;
    s->modify(numbers, changes, body, false);
    printf("changes: %d; scans: %d,%d,%s,bytes,%llu\n", changes, scans, KEPT_SLOTS, s->name,
           (unsigned long long)s->kept());
    for (int i = 0; i < scans; i++) {
        struct list l = s->list(i, UINT32_MAX);
        if (l.records != KEPT_SLOTS || l.sum != before)
            fail(s->name, "a list of other records than stood there when it began");
    }
    s->drop();
    s->close();
}

int main(int argc, char **argv)
{
    if (argc < 3)
        fail("usage", "bench FILES TURNS [PAGE]");
    files = argv[1];
    clock_from(argc > 3 ? argv[3] : NULL);
    body[4] = 1;
    for (uint32_t slots = 64; slots <= MOST_SLOTS; slots *= 16)
        measure(slots, atoi(argv[2]));
    for (int changes = 1; changes <= KEPT_MOST; changes += KEPT_MOST - 1)
        for (int scans = 1; scans <= SCANS; scans += SCANS - 1)
            for (int i = 0; i < STORES; i++) {
                body[OWN] = 1;
                keeps(stores[i], changes, scans);
            }
    return 0;
}
