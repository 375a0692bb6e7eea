#define _POSIX_C_SOURCE 200809L
#include "play.h"

#include <inttypes.h>
#include <setjmp.h>
#include <signal.h>
#include <stdio.h>
#include <stdlib.h>
#include <string.h>
#include <unistd.h>

#include "inarumpit.h"
#include "maskless.h"
#include "pages.h"
#include "progress.h"
#include "readings.h"
#include "shrink.h"
#include "store.h"

enum { MOST_CALLS = 1 << 16, SECONDS_A_SEQUENCE = 120 };

/* A side: its eight calls and its own five buffers. */
struct side {
    uint64_t (*open)(LENT, uint32_t);
    uint64_t (*insert)(LENT, uint32_t, const uint8_t *, size_t);
    uint64_t (*modify)(LENT, uint32_t, const uint8_t *, size_t);
    uint64_t (*delete)(LENT, uint32_t);
    uint64_t (*begin)(LENT);
    uint64_t (*next)(LENT, uint32_t, uint32_t, uint8_t *, size_t);
    uint64_t (*tally)(SHOWN);
    uint64_t (*owed)(SHOWN, uint32_t);
    struct pages buffer[BUFFERS];
};

static struct side library = {
    inarumpit_open, inarumpit_insert, inarumpit_modify, inarumpit_delete,
    inarumpit_begin, inarumpit_next, inarumpit_tally, inarumpit_owed, { { 0 } }
};
static struct side second = {
    second_open, second_insert, second_modify, second_delete,
    second_begin, second_next, second_tally, second_owed, { { 0 } }
};

uint64_t calls_played, sequences_played;

static struct shape shape;
static struct call played[MOST_CALLS];
static size_t played_count;

/* ---- one side */

static uint8_t *buffer_of(const struct side *side, const struct call *c, enum buffer b)
{
    return c->null >> b & 1 ? NULL : side->buffer[b].at;
}

static size_t len_of(const struct side *side, const struct call *c, enum buffer b)
{
    return c->len[b] == AS_IT_IS ? side->buffer[b].len : c->len[b];
}

static uint64_t make(const struct side *side, const struct call *c)
{
#define EACH(b) buffer_of(side, c, b), len_of(side, c, b)
#define ALL_THREE EACH(DESK), EACH(TABLE), EACH(SHELF)
    switch (c->which) {
    case OPEN: return side->open(ALL_THREE, c->number);
    case INSERT: return side->insert(ALL_THREE, c->number, EACH(BODY));
    case MODIFY: return side->modify(ALL_THREE, c->number, EACH(BODY));
    case DELETE: return side->delete(ALL_THREE, c->number);
    case BEGIN: return side->begin(ALL_THREE);
    case NEXT: return side->next(ALL_THREE, c->number, c->budget, EACH(OUT));
    case TALLY: return side->tally(ALL_THREE);
    case OWED: return side->owed(ALL_THREE, c->number);
    case POKE: break;
    }
    return 0;
#undef ALL_THREE
#undef EACH
}

/* The library's buffers in a struct, as the call says them. */
static struct inarumpit_store in_struct(const struct call *c)
{
    struct inarumpit_store store = {
        .desk = buffer_of(&library, c, DESK), .desk_len = len_of(&library, c, DESK),
        .table = buffer_of(&library, c, TABLE), .table_len = len_of(&library, c, TABLE),
        .shelf = buffer_of(&library, c, SHELF), .shelf_len = len_of(&library, c, SHELF)
    };
    return store;
}

/* Whether the calls on a struct can say it: body and hand-out buffer have their own length, or are NULL. */
static bool fits_struct(const struct call *c)
{
    return (c->len[BODY] == AS_IT_IS || c->null >> BODY & 1) && (c->len[OUT] == AS_IT_IS || c->null >> OUT & 1);
}

static uint64_t make_on_struct(const struct call *c)
{
    const struct inarumpit_store store = in_struct(c);
    switch (c->which) {
    case OPEN: return inarumpit_store_open(&store, c->number);
    case INSERT: return inarumpit_store_insert(&store, c->number, buffer_of(&library, c, BODY));
    case MODIFY: return inarumpit_store_modify(&store, c->number, buffer_of(&library, c, BODY));
    case DELETE: return inarumpit_store_delete(&store, c->number);
    case BEGIN: return inarumpit_store_begin(&store);
    case NEXT: return inarumpit_store_next(&store, c->number, c->budget, buffer_of(&library, c, OUT));
    case TALLY: return inarumpit_store_tally(&store);
    case OWED: return inarumpit_store_owed(&store, c->number);
    case POKE: break;
    }
    return 0;
}

/* What the host itself writes: its pokes, the body it lends, and a hand-out buffer that reads otherwise each time. */
static void prepare(struct side *side, const struct call *c, size_t turn)
{
    uint8_t *into = side->buffer[c->into].at + c->at;
    switch (c->which) {
    case POKE:
        for (uint32_t k = 0; k < c->repeat; k++) {
            memcpy(into + SLOT_BYTES * (size_t)k, c->bytes, c->size);
            if (c->repeat > 1)
                write32(into + SLOT_BYTES * (size_t)k, read32(c->bytes) + k);
        }
        break;
    case INSERT:
    case MODIFY:
        memcpy(side->buffer[BODY].at, c->bytes, BODY_BYTES);
        break;
    case NEXT:
        memset(side->buffer[OUT].at, (int)(turn % 251 + 1), OUT_BYTES);
        break;
    default:
        break;
    }
}

/* ---- calls that fault, or do not come back */

static sigjmp_buf before_call;
static volatile sig_atomic_t in_call;

static void on_signal(int number)
{
    if (in_call)
        siglongjmp(before_call, number);
    signal(number, SIG_DFL);
    raise(number);
}

static void catch_signals(void)
{
    static const int numbers[] = { SIGSEGV, SIGBUS, SIGFPE, SIGILL, SIGTRAP, SIGABRT, SIGALRM };
    struct sigaction action;
    memset(&action, 0, sizeof action);
    action.sa_handler = on_signal;
    action.sa_flags = SA_NODEFER;
    for (size_t i = 0; i < sizeof numbers / sizeof numbers[0]; i++)
        sigaction(numbers[i], &action, NULL);
}

/* Makes the call, on a side or through the library's struct; 0, or the signal that ended it. */
static int make_caught(const struct side *side, const struct call *c, bool on_struct, uint64_t *returned)
{
    int number = sigsetjmp(before_call, 0);
    if (number == 0) {
        in_call = 1;
        *returned = on_struct ? make_on_struct(c) : make(side, c);
    }
    in_call = 0;
    return number;
}

/* Reads the library's buffers by the header; 0, or the signal that ended it. */
static int read_caught(const struct call *c, size_t turn, uint64_t returned, const char **differs)
{
    const struct inarumpit_store store = in_struct(c);
    int number = sigsetjmp(before_call, 0);
    if (number == 0) {
        in_call = 1;
        *differs = readings_differ(&store, c->number, (uint32_t)turn, returned);
    }
    in_call = 0;
    return number;
}

/* ---- both sides */

static char why[256];
static bool came_back = true;

static const char *faulted(const char *who, int number)
{
    came_back = number != SIGALRM;
    if (!came_back)
        snprintf(why, sizeof why, "%s does not come back", who);
    else
        snprintf(why, sizeof why, "%s reads or writes where it must not (signal %d)", who, number);
    return why;
}

/* NULL, or the first byte that differs. */
static const char *bytes_differ(void)
{
    for (int b = 0; b < BUFFERS; b++) {
        const uint8_t *x = margin_start(&library.buffer[b]), *y = margin_start(&second.buffer[b]);
        size_t len = margin_len(&library.buffer[b]), i = 0;
        if (memcmp(x, y, len) == 0)
            continue;
        while (x[i] == y[i])
            i++;
        snprintf(why, sizeof why, "%s byte %td: library %u, second program %u", buffer_name[b],
                 x + i - library.buffer[b].at, x[i], y[i]);
        return why;
    }
    return NULL;
}

/* Plays one call; NULL, or how it differs. Numbers that document 01 gives hold only where all calls before were played. */
static const char *run(const struct call *c, size_t turn, bool all_before, uint64_t *returned)
{
    uint64_t ours = 0, theirs = 0;
    prepare(&library, c, turn);
    prepare(&second, c, turn);
    int number = make_caught(&second, c, false, &theirs);
    if (number)
        return faulted("the second program", number);
    number = make_caught(&library, c, turn % 2 == 1 && fits_struct(c), &ours);
    if (number)
        return faulted("the library", number);
    *returned = ours;
    if (ours != theirs) {
        snprintf(why, sizeof why, "library %" PRIu64 " + 256 * %" PRIu64 ", second program %" PRIu64 " + 256 * %" PRIu64,
                 ours % 256, ours / 256, theirs % 256, theirs / 256);
        return why;
    }
    if (all_before && c->wanted && ours != c->want) {
        snprintf(why, sizeof why, "both say %" PRIu64 ", document 01 says %" PRIu64, ours, c->want);
        return why;
    }
    const char *differ = bytes_differ();
    size_t len[BUFFERS];
    for (int b = 0; b < BUFFERS; b++)
        len[b] = len_of(&library, c, (enum buffer)b);
    if (!differ && shape.clean)
        differ = maskless_told(c, len, ours, library.buffer[OUT].at, library.buffer[SHELF].at);
    if (differ || c->which == POKE)
        return differ;
    number = read_caught(c, turn, ours, &differ);
    return number ? faulted("the header", number) : differ;
}

static void start(void)
{
    size_t len[BUFFERS] = { DESK_BYTES, SLOT_BYTES * (size_t)shape.slots, SLOT_BYTES * (size_t)shape.entries,
                            BODY_BYTES, OUT_BYTES };
    for (int b = 0; b < BUFFERS; b++) {
        lend(&library.buffer[b], len[b], shape.lie[b], shape.fill);
        lend(&second.buffer[b], len[b], shape.lie[b], shape.fill);
    }
    if (shape.clean)
        maskless_start(shape.slots, shape.entries);
    alarm(SECONDS_A_SEQUENCE);
}

const char *replay(const struct call *calls, size_t count, size_t *at)
{
    uint64_t returned;
    start();
    for (*at = 0; *at < count; ++*at) {
        const char *differs = run(&calls[*at], *at, false, &returned);
        if (differs)
            return differs;
    }
    return NULL;
}

/* ---- what the generators use */

struct shape shape_by(struct chance *chance, const char *kind, uint32_t slots, uint32_t entries, bool clean)
{
    struct shape by = { .kind = kind, .slots = slots, .entries = entries, .fill = (uint8_t)draw(chance), .clean = clean };
    for (int b = 0; b < BUFFERS; b++) {
        uint32_t way = below(chance, 3);
        by.lie[b] = way == 0 ? AGAINST_AFTER : way == 1 ? 0 : between(chance, 1, 63);
    }
    return by;
}

void play_start(const struct shape *from)
{
    if (sequences_played == 0)
        catch_signals();
    progress(calls_played, sequences_played);
    sequences_played++;
    shape = *from;
    played_count = 0;
    start();
}

uint64_t play(struct call c)
{
    uint64_t returned = 0;
    if (played_count == MOST_CALLS) {
        fprintf(stderr, "agree: a sequence of more than %d calls\n", MOST_CALLS);
        exit(2);
    }
    played[played_count++] = c;
    calls_played += c.which != POKE;
    const char *differs = run(&c, played_count - 1, true, &returned);
    if (differs) {
        progress_clear();
        printf("sequence %" PRIu64 " (%s), call %zu: %s: %s\n", sequences_played, shape.kind, played_count,
               call_name[c.which], differs);
        if (came_back)
            print_shrunk(&shape, played, played_count);
        else
            print_calls(&shape, played, played_count);
        printf("%" PRIu64 " calls, %" PRIu64 " sequences, 1 mismatches\n", calls_played, sequences_played);
        exit(1);
    }
    return returned;
}

void expect(struct call c, uint64_t want)
{
    c.wanted = true;
    c.want = want;
    play(c);
}

const uint8_t *lent(enum buffer b)
{
    return library.buffer[b].at;
}
