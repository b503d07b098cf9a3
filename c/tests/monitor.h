/* Watches the shim between two calls of the machine: each access that the machine names must be the one that the shim makes.
 *
 * monitor.c takes the place of the machine's calls (linked with -Wl,--wrap=rme_start and so on) and passes each on. Before it passes a
 * value on, it compares: the word named for a store holds the value named, and the value fed for a load is that of the word named.
 * Stores that the machine was fed before they are made, by rme_leave and rme_feed_append, are compared at the next call, or at the
 * library's return. This holds where one process alone steps; a difference is a fault of the shim. */
#ifndef MONITOR_H
#define MONITOR_H
#include "rme.h"
#include <stdbool.h>

/* The accesses that the machine has named last for a process: one, or those of a run. */
enum { MOST_NAMED = 8 + 3 * 64 };
struct named {
    const struct rme_process *process;
    struct rme_access accesses[MOST_NAMED];
    bool seen[MOST_NAMED]; /* whether a tracer that goes on by single steps has seen the word change so */
    uint64_t count, own[3]; /* the process's own lock words when they were named */
};

/* In memory that outlives a kill, where the test asks what was named. Without `file` nothing is watched. */
struct monitor {
    const unsigned char *file; /* the file, mapped by the test itself */
    uint64_t procs, words;
    struct named named[4];
    const struct rme_process *owed; /* whose named stores are fed, and still to be made */
    uint64_t last, compared;
    uint64_t stepped; /* whether a tracer goes on by single steps at all */
    uint64_t traced, silent; /* whether a tracer goes on by single steps, but where this is silent */
};

extern struct monitor *monitor;

/* Where the word at a place of the block lies in the file, in bytes. */
uint64_t offset_of(uint64_t place, uint64_t procs);
/* The test's own answer to an access that differs. */
_Noreturn void monitor_refuses(const char *what, const struct rme_access *named, uint64_t found);
/* Forgets what was named: a new process begins. */
void monitor_begins(void);

/* Around each call of the library: a tracer goes on by single instructions from in_library on, and lets run what in_test says is
 * the test's own. The machine's calls are silent too: none is handed anything that leads to the file. */
void in_library(void);
void in_test(void);
static inline int in_test_again(int answer) { return in_test(), answer; }
#define TRACED(call) (in_library(), in_test_again(call))

#endif
