/* agree [rounds N | seconds N | clean N] [seed N]: makes the same calls on the library and on the second program, and
   compares every answer and every byte. First the sequences that are always the same and a few rounds of sequences drawn
   by the seed; then further rounds, N in all or as many as begin within N seconds. With clean: N rounds on stores that only
   calls have written, and nothing else. The last line says how many calls and sequences were compared. */
#include <inttypes.h>
#include <stdio.h>
#include <stdlib.h>
#include <string.h>
#include <time.h>

#include "progress.h"
#include "readings.h"
#include "sequences.h"

enum { FIRST_ROUNDS = 8 };

static uint64_t rounds = FIRST_ROUNDS, seconds, clean, seed = 1;

/* The words of the command: the least number after each, and where it goes. */
static const struct word {
    const char *name;
    uint64_t least, *value;
} known[] = { { "rounds", FIRST_ROUNDS, &rounds }, { "seconds", 1, &seconds }, { "clean", 1, &clean }, { "seed", 0, &seed } };

static void one_round(uint64_t number)
{
    struct chance chance = { seed * UINT64_C(1000003) + number };
    play_history(&chance);
    if (clean > 0)
        return;
    play_foreign(&chance);
    play_broken_desks(&chance);
}

static void play_all(void)
{
    time_t started = time(NULL);
    struct chance chance = { seed };
    uint64_t k = 0, gone;
    progress_part("the worked session, wrong lengths", 0, 0);
    play_session();
    play_lengths(&chance);
    progress_part("the header", 0, 0);
    play_header(&chance);
    play_debug();
    while (k < FIRST_ROUNDS) {
        progress_part("first rounds", k, FIRST_ROUNDS);
        one_round(k++);
    }
    progress_part("the largest store", 0, 0);
    play_largest(&chance);
    progress_part("every tiny store", 0, 0);
    play_every_store(seconds > 0);
    while (gone = (uint64_t)(time(NULL) - started), seconds > 0 ? gone < seconds : k < rounds) {
        progress_part(seconds > 0 ? "seconds" : "rounds", seconds > 0 ? gone : k, seconds > 0 ? seconds : rounds);
        one_round(k++);
    }
}

static void play_clean(void)
{
    for (uint64_t k = 0; k < clean; k++) {
        progress_part("clean rounds", k, clean);
        one_round(k);
    }
}

/* The word of that name, or NULL. */
static const struct word *find(const char *name)
{
    for (size_t k = 0; k < sizeof known / sizeof known[0]; k++)
        if (strcmp(name, known[k].name) == 0)
            return &known[k];
    return NULL;
}

/* Whether the text is a number from least to 4,294,967,295, in digits and nothing else. */
static bool read_number(const char *text, uint64_t least, uint64_t *value)
{
    size_t digits = strspn(text, "0123456789");
    *value = strtoull(text, NULL, 10);
    return digits > 0 && text[digits] == '\0' && *value >= least && *value <= UINT32_MAX;
}

/* Reads the words of the command; false where they are no such words, and it has been said why. */
static bool read_words(int count, char **words)
{
    for (int i = 1; i < count; i += 2) {
        const struct word *word = find(words[i]);
        const char *number = i + 1 < count ? words[i + 1] : "";
        if (!word) {
            fprintf(stderr, "usage: agree [rounds N | seconds N | clean N] [seed N]\n");
            return false;
        }
        if (!read_number(number, word->least, word->value)) {
            fprintf(stderr, "agree: %s: '%s' is no number from %" PRIu64 " to %" PRIu32 "\n", word->name, number,
                    word->least, UINT32_MAX);
            return false;
        }
    }
    return true;
}

int main(int count, char **words)
{
    if (!read_words(count, words))
        return 2;
    if (clean > 0)
        play_clean();
    else
        play_all();
    progress_clear();
    printf("%" PRIu64 " readings of the header, 0 mismatches\n", readings_compared);
    printf("%" PRIu64 " calls, %" PRIu64 " sequences, 0 mismatches\n", calls_played, sequences_played);
    return 0;
}
