#define _DEFAULT_SOURCE
#include "pages.h"

#include <stdio.h>
#include <stdlib.h>
#include <string.h>
#include <sys/mman.h>
#include <unistd.h>

enum { MARGIN = 64, MARGIN_FILL = 0xA5 };

/* Maps the readable bytes with an unreadable page before and one after them. */
static void map(struct pages *pages, size_t readable, size_t page)
{
    if (pages->first)
        munmap(pages->first - page, pages->readable + 2 * page);
    uint8_t *all = mmap(NULL, readable + 2 * page, PROT_NONE, MAP_PRIVATE | MAP_ANONYMOUS, -1, 0);
    if (all == MAP_FAILED || mprotect(all + page, readable, PROT_READ | PROT_WRITE) != 0) {
        perror("agree: no memory for the buffers");
        exit(2);
    }
    pages->first = all + page;
    pages->readable = readable;
}

void lend(struct pages *pages, size_t len, unsigned lie, uint8_t fill)
{
    size_t page = (size_t)sysconf(_SC_PAGESIZE);
    size_t readable = (len + MARGIN + page - 1) / page * page;
    if (pages->readable != readable)
        map(pages, readable, page);
    pages->at = lie == AGAINST_AFTER ? pages->first + readable - len : pages->first + lie;
    pages->len = len;
    memset((uint8_t *)margin_start(pages), MARGIN_FILL, margin_len(pages));
    memset(pages->at, fill, len);
}

const uint8_t *margin_start(const struct pages *pages)
{
    size_t before = (size_t)(pages->at - pages->first);
    return pages->at - (before < MARGIN ? before : MARGIN);
}

size_t margin_len(const struct pages *pages)
{
    size_t after = (size_t)(pages->first + pages->readable - pages->at) - pages->len;
    return (size_t)(pages->at - margin_start(pages)) + pages->len + (after < MARGIN ? after : MARGIN);
}
