/* What a piece of work costs, in nanoseconds or in executed instructions. */
#ifndef BENCH_CLOCK_H
#define BENCH_CLOCK_H

#include <stdbool.h>
#include <stdint.h>

/* Reads the instructions that the emulator's plugin counts into this file; NULL: nanoseconds. */
void clock_from(const char *page);

/* Whether instructions are counted. */
bool clock_counts(void);

const char *clock_unit(void);

uint64_t clock_now(void);

#endif
