/* What reap_test and doomed_test share: a file whose holders count twice in the caller's data, and a tally beside it. */
#ifndef REAPING_H
#define REAPING_H

#include "clock.h"
#include "rme.h"

#include <errno.h>
#include <inttypes.h>
#include <signal.h>
#include <stdatomic.h>
#include <stdio.h>
#include <stdlib.h>
#include <string.h>
#include <sys/mman.h>
#include <sys/wait.h>
#include <unistd.h>

enum { MOST = 64 };

/* The caller's data: both are counted by whoever is inside, one after the other. */
struct counted {
    uint64_t first, second;
};

/* Beside the file, and no part of it. */
struct tally {
    _Atomic uint64_t owner, overlaps, strangers, repairs, answered[MOST];
};

static char path[4000];
static struct tally *tally;
static uint64_t senders;

static inline void expect_at(int line, const char *what, uint64_t got, uint64_t wanted)
{
    if (got == wanted)
        return;
    fprintf(stderr, "%s:%d: %s: %" PRIu64 " (%s), wanted %" PRIu64 "\n", program_invocation_short_name, line, what, got,
            rme_strerror((int)got), wanted);
    exit(1);
}
#define EXPECT(call, wanted) expect_at(__LINE__, #call, (uint64_t)(call), (uint64_t)(wanted))

static inline void make(uint64_t procs, uint64_t cap)
{
    unlink(path);
    EXPECT(rme_create(path, procs, cap, 3, sizeof(struct counted)), 0);
    senders = procs;
    memset((void *)tally, 0, sizeof *tally);
}

static inline int repair(struct rme_seat *dead, uint64_t index, void *data, size_t bytes, void *context)
{
    struct counted *counted = data;
    uint64_t owner = tally->owner;
    (void)dead, (void)context;
    if (owner != 0 && owner != index + 1)
        tally->strangers++; /* somebody else is inside */
    if (bytes != sizeof *counted || drand48() < 0.5)
        nap(0.0005); /* time to be killed in here */
    counted->second = counted->first;
    tally->owner = 0;
    tally->repairs++;
    return 0;
}

static inline void expect_killed(pid_t child)
{
    int status = 0;
    waitpid(child, &status, 0);
    EXPECT(WIFSIGNALED(status) && WTERMSIG(status) == SIGKILL, true);
}

static inline void expect_ended(pid_t child)
{
    int status = 0;
    EXPECT(waitpid(child, &status, 0), child);
    EXPECT(status, 0);
}

/* The tally is shared with the children. */
static inline void begin_tally(const char *folder, long seed)
{
    setvbuf(stdout, NULL, _IOLBF, 0);
    snprintf(path, sizeof path, "%s/file", folder);
    srand48(seed);
    tally = mmap(NULL, sizeof *tally, PROT_READ | PROT_WRITE, MAP_SHARED | MAP_ANONYMOUS, -1, 0);
    EXPECT(tally != MAP_FAILED, true);
}

#endif
