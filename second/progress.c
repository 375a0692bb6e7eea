#define _POSIX_C_SOURCE 200809L
#include "progress.h"

#include <inttypes.h>
#include <stdbool.h>
#include <stdio.h>
#include <time.h>
#include <unistd.h>

enum { TIMES_A_SECOND = 5 };

static char part[80];
static bool shown;

void progress_part(const char *name, uint64_t done, uint64_t of)
{
    if (of > 0)
        snprintf(part, sizeof part, "%s %" PRIu64 " of %" PRIu64, name, done, of);
    else
        snprintf(part, sizeof part, "%s", name);
}

void progress(uint64_t calls, uint64_t sequences)
{
    static int64_t last = -1;
    struct timespec now;
    if (!isatty(STDERR_FILENO) || clock_gettime(CLOCK_MONOTONIC, &now) != 0)
        return;
    int64_t turn = (int64_t)now.tv_sec * TIMES_A_SECOND + now.tv_nsec / (1000000000 / TIMES_A_SECOND);
    if (turn == last)
        return;
    last = turn;
    shown = true;
    fprintf(stderr, "\r\033[K%s: %" PRIu64 " calls, %" PRIu64 " sequences", part, calls, sequences);
}

void progress_clear(void)
{
    if (shown)
        fprintf(stderr, "\r\033[K");
    shown = false;
}
