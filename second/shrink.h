/* A sequence that differs, made short and printed. */
#ifndef SECOND_SHRINK_H
#define SECOND_SHRINK_H

#include "play.h"

/* Shrinks the calls in place and prints what is left of them. */
void print_shrunk(const struct shape *shape, struct call *calls, size_t count);

/* Prints the calls as they are. */
void print_calls(const struct shape *shape, const struct call *calls, size_t count);

#endif
