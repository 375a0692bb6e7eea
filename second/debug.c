/* The header as a debug build has it: each call on a store in a struct stops where buffers overlap, and only there. */
#define _POSIX_C_SOURCE 200809L
#define INARUMPIT_DEBUG
#include "readings.h"

#include <signal.h>
#include <stdio.h>
#include <stdlib.h>
#include <sys/resource.h>
#include <sys/wait.h>
#include <unistd.h>

#include "sequences.h"

enum { CALLS_ON_A_STORE = 8 };

static void make(int which, const struct inarumpit_store *store, uint8_t *body, uint8_t *out)
{
    switch (which) {
    case 0: inarumpit_store_open(store, 1); break;
    case 1: inarumpit_store_insert(store, 1, body); break;
    case 2: inarumpit_store_modify(store, 1, body); break;
    case 3: inarumpit_store_delete(store, 1); break;
    case 4: inarumpit_store_begin(store); break;
    case 5: inarumpit_store_next(store, 1, 1, out); break;
    case 6: inarumpit_store_tally(store); break;
    default: inarumpit_store_owed(store, 1); break;
    }
}

/* Whether an assertion stops the call; in a process of its own, that says nothing and leaves nothing behind. */
static bool stops(int which, const struct inarumpit_store *store, uint8_t *body, uint8_t *out)
{
    int status = 0;
    pid_t child = fork();
    if (child == 0) {
        const struct rlimit no_core = { 0, 0 };
        signal(SIGABRT, SIG_DFL);
        if (!freopen("/dev/null", "w", stderr) || setrlimit(RLIMIT_CORE, &no_core) != 0)
            _exit(2);
        make(which, store, body, out);
        _exit(0);
    }
    if (child < 0 || waitpid(child, &status, 0) != child) {
        perror("agree: no process for a debug build");
        exit(2);
    }
    return WIFSIGNALED(status) && WTERMSIG(status) == SIGABRT;
}

void play_debug(void)
{
    static uint8_t memory[INARUMPIT_STORE_BYTES(2, 2)], body[INARUMPIT_BODY_SIZE], out[INARUMPIT_OUT_SIZE];
    struct inarumpit_store apart = inarumpit_store_in(memory, sizeof memory, 2, 2), shared = apart;
    shared.shelf = shared.table + INARUMPIT_SLOT_SIZE;
    for (int which = 0; which < CALLS_ON_A_STORE; which++) {
        bool takes_body = which == 1 || which == 2, takes_out = which == 5;
        bool right = !stops(which, &apart, body, out) && stops(which, &shared, body, out)
            && stops(which, &apart, memory + sizeof memory - 1, out) == takes_body
            && stops(which, &apart, body, memory) == takes_out;
        readings_compared += 4;
        if (right)
            continue;
        printf("the header: in a debug build call %d stops where nothing overlaps, or does not where something does\n", which);
        exit(1);
    }
}
