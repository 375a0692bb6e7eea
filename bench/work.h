/* What is measured: four stores that do the same work. Each holds T records, numbers 1 to T, bodies of 52 bytes. */
#ifndef BENCH_WORK_H
#define BENCH_WORK_H

#include <stdbool.h>
#include <stdint.h>

#define TEXT(x) #x
#define TEXT_OF(x) TEXT(x)

enum { BODY = 52, OWN = 5, SCANS = 8, MOST_SLOTS = 16384 };

/* The sum over the records handed out of number x byte OWN of the body, to compare lists by. */
struct list {
    uint32_t records;
    uint64_t sum;
};

struct store {
    const char *name;
    uint32_t draws;                                     /* at most so many records of a list are drawn and timed */
    void (*open)(uint32_t slots, const uint8_t *body);  /* T records, all with this body */
    void (*modify)(const uint32_t *numbers, int count, const uint8_t *body, bool together); /* in one transaction */
    void (*begin)(int scan);
    struct list (*list)(int scan, uint32_t most);       /* draws a begun scan, to its end where most allows */
    void (*drop)(void);                                 /* ends all scans, and what was kept for them; not timed */
    uint64_t (*kept)(void);                             /* bytes kept for old versions now */
    void (*close)(void);
};

extern const struct store library, second, sqlite, lmdb;

/* A folder in memory for the stores that need files. */
extern const char *files;

void fail(const char *who, const char *what);

static inline void add(struct list *l, uint32_t number, const uint8_t *body)
{
    l->records++;
    l->sum += (uint64_t)number * body[OWN];
}

#endif
