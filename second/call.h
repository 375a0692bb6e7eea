/* A call as data: it can be kept, played again and printed. */
#ifndef SECOND_CALL_H
#define SECOND_CALL_H

#include <stdbool.h>
#include <stddef.h>
#include <stdint.h>

enum which { OPEN, INSERT, MODIFY, DELETE, BEGIN, NEXT, TALLY, OWED, POKE };

enum buffer { DESK, TABLE, SHELF, BODY, OUT, BUFFERS };

enum { DESK_BYTES = 1088, SLOT_BYTES = 64, BODY_BYTES = 52, OUT_BYTES = 56, POSITIONS = 64 };

#define AS_IT_IS SIZE_MAX    /* a length said as it is */
#define UNBOUNDED UINT32_MAX /* a budget that is never spent */

struct call {
    enum which which;
    uint32_t number;           /* N, the record number or the ticket */
    uint32_t budget;
    uint8_t bytes[SLOT_BYTES]; /* the body, or what is poked */
    size_t len[BUFFERS];       /* the lengths said */
    unsigned null;             /* bit b: buffer b is lent as NULL */
    /* A poke: the host itself writes size bytes into its buffer, and again a slot further on, repeat times in all, with
       the number in front counted up. */
    enum buffer into;
    size_t at, size;
    uint32_t repeat;
    bool wanted;               /* document 01 gives the number that comes back: this one */
    uint64_t want;
};

struct call call_open(uint32_t n);
struct call call_insert(uint32_t number, const uint8_t *body);
struct call call_modify(uint32_t number, const uint8_t *body);
struct call call_delete(uint32_t number);
struct call call_begin(void);
struct call call_next(uint32_t ticket, uint32_t budget);
struct call call_tally(void);
struct call call_owed(uint32_t ticket);

struct call poke(enum buffer into, size_t at, const void *bytes, size_t size);
struct call poke32(enum buffer into, size_t at, uint32_t value);
struct call poke64(enum buffer into, size_t at, uint64_t value);

extern const char *const call_name[];
extern const char *const buffer_name[];

/* One line. */
void print_call(const struct call *call);

uint32_t read32(const uint8_t *from);
uint64_t read64(const uint8_t *from);
void write32(uint8_t *to, uint32_t value);
void write64(uint8_t *to, uint64_t value);

#endif
