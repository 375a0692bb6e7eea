#include "call.h"

#include <inttypes.h>
#include <stdio.h>
#include <string.h>

const char *const call_name[] = { "open", "insert", "modify", "delete", "begin", "next", "tally", "owed",
                                  "the host writes" };
const char *const buffer_name[] = { "desk", "table", "shelf", "body", "hand-out buffer" };

/* ---- making one */

static struct call plain(enum which which, uint32_t number)
{
    struct call c = { .which = which, .number = number };
    for (int b = 0; b < BUFFERS; b++)
        c.len[b] = AS_IT_IS;
    return c;
}

static struct call with_body(enum which which, uint32_t number, const uint8_t *body)
{
    struct call c = plain(which, number);
    memcpy(c.bytes, body, BODY_BYTES);
    return c;
}

struct call call_open(uint32_t n) { return plain(OPEN, n); }
struct call call_insert(uint32_t number, const uint8_t *body) { return with_body(INSERT, number, body); }
struct call call_modify(uint32_t number, const uint8_t *body) { return with_body(MODIFY, number, body); }
struct call call_delete(uint32_t number) { return plain(DELETE, number); }
struct call call_begin(void) { return plain(BEGIN, 0); }
struct call call_tally(void) { return plain(TALLY, 0); }
struct call call_owed(uint32_t ticket) { return plain(OWED, ticket); }

struct call call_next(uint32_t ticket, uint32_t budget)
{
    struct call c = plain(NEXT, ticket);
    c.budget = budget;
    return c;
}

struct call poke(enum buffer into, size_t at, const void *bytes, size_t size)
{
    struct call c = plain(POKE, 0);
    c.into = into;
    c.at = at;
    c.size = size;
    c.repeat = 1;
    memcpy(c.bytes, bytes, size);
    return c;
}

struct call poke32(enum buffer into, size_t at, uint32_t value)
{
    uint8_t bytes[4];
    write32(bytes, value);
    return poke(into, at, bytes, sizeof bytes);
}

struct call poke64(enum buffer into, size_t at, uint64_t value)
{
    uint8_t bytes[8];
    write64(bytes, value);
    return poke(into, at, bytes, sizeof bytes);
}

/* ---- printing one */

static void print_bytes(const uint8_t *bytes, size_t size)
{
    for (size_t i = 0; i < size; i++)
        printf("%02x", bytes[i]);
}

void print_call(const struct call *c)
{
    printf("  %s", call_name[c->which]);
    switch (c->which) {
    case OPEN:
        printf(" N %" PRIu32, c->number);
        break;
    case INSERT:
    case MODIFY:
        printf(" number %" PRIu32 ", body ", c->number);
        print_bytes(c->bytes, BODY_BYTES);
        break;
    case DELETE:
        printf(" number %" PRIu32, c->number);
        break;
    case NEXT:
        printf(" ticket %" PRIu32 ", budget %" PRIu32, c->number, c->budget);
        break;
    case OWED:
        printf(" ticket %" PRIu32, c->number);
        break;
    case POKE:
        printf(" %s from byte %zu: ", buffer_name[c->into], c->at);
        print_bytes(c->bytes, c->size);
        if (c->repeat > 1)
            printf(", %" PRIu32 " times", c->repeat);
        break;
    case BEGIN:
    case TALLY:
        break;
    }
    for (int b = 0; b < BUFFERS; b++) {
        if (c->len[b] != AS_IT_IS)
            printf(", %s length %zu", buffer_name[b], c->len[b]);
        if (c->null >> b & 1)
            printf(", %s NULL", buffer_name[b]);
    }
    printf("\n");
}

/* ---- numbers in bytes */

uint32_t read32(const uint8_t *from)
{
    return from[0] | (uint32_t)from[1] << 8 | (uint32_t)from[2] << 16 | (uint32_t)from[3] << 24;
}

uint64_t read64(const uint8_t *from)
{
    return read32(from) | (uint64_t)read32(from + 4) << 32;
}

void write32(uint8_t *to, uint32_t value)
{
    for (int i = 0; i < 4; i++)
        to[i] = (uint8_t)(value >> 8 * i);
}

void write64(uint8_t *to, uint64_t value)
{
    write32(to, (uint32_t)value);
    write32(to + 4, (uint32_t)(value >> 32));
}
