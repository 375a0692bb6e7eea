#include "shrink.h"

#include <inttypes.h>
#include <stdio.h>
#include <stdlib.h>
#include <string.h>

/* Replays are bounded by the bytes that they start from, so that a large store does not shrink for ever. */
static const uint64_t MOST_BYTES = UINT64_C(1) << 32;

static uint64_t bytes_left;

/* Whether the calls without those from..to differ still; then they are taken out. */
static bool without(const struct shape *shape, struct call *calls, size_t *count, size_t from, size_t to, struct call *fewer)
{
    uint64_t cost = (*count + 1) * (2048 + SLOT_BYTES * ((uint64_t)shape->slots + shape->entries));
    if (cost > bytes_left)
        return false;
    bytes_left -= cost;
    size_t left = *count - (to - from), at;
    memcpy(fewer, calls, from * sizeof *calls);
    memcpy(fewer + from, calls + to, (*count - to) * sizeof *calls);
    if (!replay(fewer, left, &at))
        return false;
    *count = at + 1;
    memcpy(calls, fewer, *count * sizeof *calls);
    return true;
}

/* Takes out ever smaller runs of calls, as long as what is left differs. */
static size_t shrunk(const struct shape *shape, struct call *calls, size_t count)
{
    struct call *fewer = malloc(count * sizeof *fewer);
    if (!fewer)
        return count;
    bytes_left = MOST_BYTES;
    for (size_t run = (count + 1) / 2; run >= 1; run /= 2) {
        size_t from = 0;
        while (from < count) {
            size_t to = from + run < count ? from + run : count;
            if (!without(shape, calls, &count, from, to, fewer))
                from = to;
        }
    }
    free(fewer);
    return count;
}

void print_calls(const struct shape *shape, const struct call *calls, size_t count)
{
    printf("T %" PRIu32 ", R %" PRIu32 ", every byte %u before the first call, buffers lying", shape->slots, shape->entries,
           shape->fill);
    for (int b = 0; b < BUFFERS; b++)
        printf(" %u", shape->lie[b]);
    printf(":\n");
    for (size_t i = 0; i < count; i++)
        print_call(&calls[i]);
}

void print_shrunk(const struct shape *shape, struct call *calls, size_t count)
{
    size_t at;
    count = shrunk(shape, calls, count);
    const char *differs = replay(calls, count, &at);
    printf("shortest replay found: ");
    print_calls(shape, calls, count);
    printf("  there: %s\n", differs ? differs : "document 01 gives another number");
}
