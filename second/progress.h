/* How far the work is, in one line on a terminal that the next one takes the place of; nothing anywhere else. */
#ifndef SECOND_PROGRESS_H
#define SECOND_PROGRESS_H

#include <stdint.h>

/* The part that is under way, and of how many; of 0: unknown. */
void progress_part(const char *name, uint64_t done, uint64_t of);

/* Says it, a few times a second at most. */
void progress(uint64_t calls, uint64_t sequences);

void progress_clear(void);

#endif
