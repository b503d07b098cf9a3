/* Where a tracer stops a process of log_kill_test: around each access of the machine, or at each instruction.
 *
 * log_steps.c takes the place of the machine's calls (linked with -Wl,--wrap=rme_start_run and so on) and passes each on. Where a tracer
 * stops at accesses, the machine is asked for one access after the other: runs and short ways are closed, and after each call of the
 * machine the process stops; so it does after the stores of marks and of a log's own numbers. */
#ifndef LOG_STEPS_H
#define LOG_STEPS_H

#include "rme.h"

/* In memory that tracer and process share. */
struct log_steps {
    uint64_t traced, singly; /* whether there is a tracer; whether it stops at accesses alone */
    uint64_t silent;          /* the test's own code, or the machine's */
};
extern struct log_steps *log_steps;

/* Around each call of the library. */
void in_library(void);
void in_test(void);
static inline int in_test_again(int answer) { return in_test(), answer; }
#define TRACED(call) (in_library(), in_test_again(call))

#endif
