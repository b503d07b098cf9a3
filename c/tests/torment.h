/* What torture and log_torture share: processes that are killed by SIGKILL at random and started again, until all of them have ended. */
#ifndef TORMENT_H
#define TORMENT_H

#include "clock.h"

#include <inttypes.h>
#include <signal.h>
#include <stdio.h>
#include <stdlib.h>
#include <sys/wait.h>
#include <unistd.h>

enum { MOST_TORMENTED = 67 };

/* Of each process its pid, 0 after its end; how many have not ended; how many were killed; what begins one, and answers its pid. */
struct torment {
    const char *program;
    pid_t child[MOST_TORMENTED], (*begin)(uint64_t p);
    uint64_t all, live, kills;
};

static inline void torment_begins(struct torment *t)
{
    for (uint64_t p = 0; p < t->all; p++)
        t->child[p] = t->begin(p);
    t->live = t->all;
}

/* One that was killed begins again. Any other end but that of a whole run is a failure. */
static inline void torment_goes_on(struct torment *t)
{
    int status;
    for (pid_t dead; (dead = waitpid(-1, &status, WNOHANG)) > 0;) {
        uint64_t p = 0;
        while (t->child[p] != dead)
            p++;
        if (WIFSIGNALED(status) && WTERMSIG(status) == SIGKILL) {
            t->kills++;
            t->child[p] = t->begin(p);
        } else if (WIFEXITED(status) && WEXITSTATUS(status) == 0) {
            t->child[p] = 0;
            t->live--;
        } else {
            fprintf(stderr, "%s: process %" PRIu64 ": status %d\n", t->program, p, status);
            exit(1);
        }
    }
}

/* Kills one at random after each pause, until all have ended. */
static inline void torment_ends(struct torment *t, void (*pause)(void))
{
    while (t->live > 0) {
        pause();
        const uint64_t p = (uint64_t)(drand48() * (double)t->all);
        if (t->child[p] > 0)
            kill(t->child[p], SIGKILL);
        torment_goes_on(t);
    }
}

#endif
