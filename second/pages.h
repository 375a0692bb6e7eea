/* A buffer between two unreadable pages: a byte read or written past the end that lies against a page is a fault, and
   round the other end a margin shows what was written there. */
#ifndef SECOND_PAGES_H
#define SECOND_PAGES_H

#include <stddef.h>
#include <stdint.h>

struct pages {
    uint8_t *first;      /* the readable bytes */
    size_t readable;
    uint8_t *at;         /* the buffer among them */
    size_t len;
};

/* How a buffer lies: against the page after it, or this many bytes (0 to 63) behind the page before it. */
enum { AGAINST_AFTER = 64 };

/* Places the buffer anew and fills it and its margins. */
void lend(struct pages *pages, size_t len, unsigned lie, uint8_t fill);

/* The buffer with its margins: what a call could have written without a fault. */
const uint8_t *margin_start(const struct pages *pages);
size_t margin_len(const struct pages *pages);

#endif
