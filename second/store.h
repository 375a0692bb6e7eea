/* The calls of the second program. Its names begin with second_, or with CALLS where that is defined: built with
   -DCALLS=inarumpit_ it stands in for the library. */
#ifndef SECOND_STORE_H
#define SECOND_STORE_H

#include <stddef.h>
#include <stdint.h>

#ifndef CALLS
#define CALLS second_
#endif
#define JOINED(a, b) a##b
#define NAMED(a, b) JOINED(a, b)
#define CALL(name) NAMED(CALLS, name)

/* The three buffers as each call takes them, lent to be changed or only to be read. */
#define LENT uint8_t *desk, size_t desk_len, uint8_t *table, size_t table_len, uint8_t *shelf, size_t shelf_len
#define SHOWN \
    const uint8_t *desk, size_t desk_len, const uint8_t *table, size_t table_len, const uint8_t *shelf, size_t shelf_len

uint64_t CALL(open)(LENT, uint32_t n);
uint64_t CALL(insert)(LENT, uint32_t number, const uint8_t *body, size_t body_len);
uint64_t CALL(modify)(LENT, uint32_t number, const uint8_t *body, size_t body_len);
uint64_t CALL(delete)(LENT, uint32_t number);
uint64_t CALL(begin)(LENT);
uint64_t CALL(next)(LENT, uint32_t ticket, uint32_t budget, uint8_t *out, size_t out_len);
uint64_t CALL(tally)(SHOWN);
uint64_t CALL(owed)(SHOWN, uint32_t ticket);

/* ---- lent bytes as the second program reads them */

/* A table slot with its status mask, or a shelf entry with its remset status mask. Number 0: empty. */
struct record {
    uint32_t number;
    uint8_t body[52];
    uint64_t mask;
};

struct card {
    uint32_t ticket, place, handed, zero;
};

struct reading {
    uint32_t n, t, r, last;
    uint64_t stable, active, local;
    uint8_t rest[24];
    struct card card[64];
    uint32_t slots, entries;
    struct record table[16384];
    struct record shelf[1048576];
};

/* What any bytes read as, sound or not. A buffer of a wrong length is read as zeros, or as no slots. */
const struct reading *CALL(reading)(SHOWN);

/* The slot of the last reading that modify would take for this number; NULL where there is none. */
const struct record *CALL(bearing)(uint32_t number);

#endif
