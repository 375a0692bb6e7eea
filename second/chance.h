/* Numbers drawn by a seed: the same seed, the same numbers, on every machine. */
#ifndef SECOND_CHANCE_H
#define SECOND_CHANCE_H

#include <stdbool.h>
#include <stdint.h>

struct chance {
    uint64_t state;
};

/* splitmix64 */
static inline uint64_t draw(struct chance *c)
{
    uint64_t z = c->state += UINT64_C(0x9E3779B97F4A7C15);
    z = (z ^ z >> 30) * UINT64_C(0xBF58476D1CE4E5B9);
    z = (z ^ z >> 27) * UINT64_C(0x94D049BB133111EB);
    return z ^ z >> 31;
}

/* From 0 to n - 1. */
static inline uint32_t below(struct chance *c, uint32_t n)
{
    return (uint32_t)((draw(c) >> 32) * n >> 32);
}

/* From least to most, both included. */
static inline uint32_t between(struct chance *c, uint32_t least, uint32_t most)
{
    return least + below(c, most - least + 1);
}

static inline bool one_in(struct chance *c, uint32_t n)
{
    return below(c, n) == 0;
}

#endif
