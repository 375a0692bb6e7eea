/* The sequences that are played, a file for each kind. */
#ifndef SECOND_SEQUENCES_H
#define SECOND_SEQUENCES_H

#include "play.h"

void play_session(void);                       /* the worked session and the edges, with document 01's own numbers */
void play_lengths(struct chance *chance);      /* every buffer of every call at wrong lengths, NULL */
void play_broken_desks(struct chance *chance); /* every soundness rule broken alone, at its boundary */
void play_foreign(struct chance *chance);      /* sound desks, and slots, that no calls have made */
void play_history(struct chance *chance);      /* clean histories */
void play_every_store(bool next_sizes);        /* all stores of the tiniest sizes, and of the next ones too */
void play_largest(struct chance *chance);      /* T = 16,384 and R = 1,048,576, and one more of each */
void play_header(struct chance *chance);       /* the header's functions at their bounds; tickets lost at a restart */
void play_debug(void);                         /* the header in a debug build: overlaps stop a call */

/* A body by chance, of few different ones, with a right kind. */
void draw_body(struct chance *chance, uint8_t *body);

#endif
