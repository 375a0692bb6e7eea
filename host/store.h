/* The calls that the quoting desk makes, the same on the library and on the stand-in for the old store. */
#ifndef HOST_STORE_H
#define HOST_STORE_H

#include <stdint.h>

#include "inarumpit.h"

/* T, R and N of the demo: R = N * T, so that no change is ever turned away. */
enum { SLOTS = 10, LISTS = 2, ENTRIES = LISTS * SLOTS };

struct record {
    uint32_t number;                    /* 0: none */
    uint8_t body[INARUMPIT_BODY_SIZE];
};

struct store {
    void (*open)(void);
    uint32_t (*insert)(const struct record *record);    /* these three: the answer */
    uint32_t (*modify)(const struct record *record);
    uint32_t (*delete)(uint32_t number);
    uint32_t (*begin)(void);                            /* the ticket, or 0 */
    uint64_t (*next)(uint32_t ticket, uint32_t budget, struct record *out);     /* what inarumpit_next returns */
    struct record (*slot)(uint32_t k);                  /* what stands in slot k of the table */
    uint32_t (*entries)(void);                          /* shelf entries in use */
};

extern const struct store library;          /* ours.c: Inarumpit */
extern const struct store old_store;        /* old.c: a stand-in with the old store's rule */
extern const struct store old_put_right;    /* old.c: the same code with that one rule put right */

#endif
