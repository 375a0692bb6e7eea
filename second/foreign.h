/* Stores that no calls have made: a sound desk with any masks, places and tickets, over slots with any bytes. */
#ifndef SECOND_FOREIGN_H
#define SECOND_FOREIGN_H

#include "play.h"

struct desk {
    uint32_t n, slots, entries, last;
    uint64_t stable, active, local;
    uint32_t ticket[POSITIONS], place[POSITIONS], handed[POSITIONS];
};

/* Draws such a store and starts a sequence with it. */
void foreign_store(struct chance *chance, struct desk *desk, const char *kind);

#endif
