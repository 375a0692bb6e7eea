/* The third reading: demands 2 and 3 checked from the calls and their answers alone. It keeps its own list of versions and
   of who awaits which, and never reads a mask; of the buffers it reads only number and body of the shelf entries in use,
   to compare them with the versions that left the table and are still awaited. */
#ifndef SECOND_MASKLESS_H
#define SECOND_MASKLESS_H

#include "call.h"

void maskless_start(uint32_t slots, uint32_t entries);

/* A call, the lengths it said, and what came back: NULL, or what a demand says against it. */
const char *maskless_told(const struct call *call, const size_t *len, uint64_t returned, const uint8_t *out,
                          const uint8_t *shelf);

#endif
