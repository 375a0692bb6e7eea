/* The header's inline functions compared with the second program's reading of the same bytes. */
#ifndef SECOND_READINGS_H
#define SECOND_READINGS_H

#include "inarumpit.h"

/* NULL, or what the header reads otherwise in these buffers than the second program, and in what a call returned. Any bytes
   and lengths; two numbers choose which slots and which record numbers are asked for. */
const char *readings_differ(const struct inarumpit_store *store, uint32_t number, uint32_t choice, uint64_t returned);

/* How much was compared. */
extern uint64_t readings_compared;

#endif
