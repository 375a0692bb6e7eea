/* Sequences of calls played on the library and on the second program side by side. After every call the numbers that came
   back and every byte of every buffer and round it are compared, and in a clean sequence the maskless reading is asked.
   At the first difference the sequence is shrunk and printed, and the program ends with 1. */
#ifndef SECOND_PLAY_H
#define SECOND_PLAY_H

#include "call.h"
#include "chance.h"

/* What a sequence starts from. */
struct shape {
    const char *kind;
    uint32_t slots, entries;
    unsigned lie[BUFFERS];
    uint8_t fill;    /* stands in every byte before the first call */
    bool clean;      /* opened by a call, and only calls write: the maskless reading follows */
};

/* A shape whose buffers lie by chance: against the page before or after, or at an odd address. */
struct shape shape_by(struct chance *chance, const char *kind, uint32_t slots, uint32_t entries, bool clean);

void play_start(const struct shape *shape);

/* Plays a call on both sides; the number that came back. */
uint64_t play(struct call call);

/* The same, where document 01 gives the number. */
void expect(struct call call, uint64_t want);

/* The buffers as the last call left them, and the hand-out buffer. */
const uint8_t *lent(enum buffer buffer);

/* Plays a list of calls from the start of the present shape: NULL, or how the call at *at differed. */
const char *replay(const struct call *calls, size_t count, size_t *at);

/* How much was played. */
extern uint64_t calls_played, sequences_played;

#endif
