/* The eight calls of one program of document 01, to be called by way of a table. */
#ifndef BENCH_SIDE_H
#define BENCH_SIDE_H

#include "../second/store.h"

struct side {
    uint64_t (*open)(LENT, uint32_t n);
    uint64_t (*insert)(LENT, uint32_t number, const uint8_t *body, size_t body_len);
    uint64_t (*modify)(LENT, uint32_t number, const uint8_t *body, size_t body_len);
    uint64_t (*delete)(LENT, uint32_t number);
    uint64_t (*begin)(LENT);
    uint64_t (*next)(LENT, uint32_t ticket, uint32_t budget, uint8_t *out, size_t out_len);
    uint64_t (*tally)(SHOWN);
    uint64_t (*owed)(SHOWN, uint32_t ticket);
};

extern const struct side library_calls, fast_calls, no_calls;

#endif
