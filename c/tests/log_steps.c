#include "log_steps.h"

struct log_steps *log_steps;

uint64_t __real_rme_start_run(struct rme_process *, const struct rme_call *, struct rme_access *);
uint64_t __real_rme_feed_run(struct rme_process *, uint64_t, uint64_t, struct rme_access *);
uint64_t __real_rme_next(const struct rme_process *, struct rme_access *);
uint64_t __real_rme_leave(struct rme_process *, struct rme_access *);
uint64_t __real_rme_feed_append(struct rme_process *, uint64_t, uint64_t, uint64_t, struct rme_stores *, struct rme_access *);
uint64_t __wrap_rme_start_run(struct rme_process *, const struct rme_call *, struct rme_access *);
uint64_t __wrap_rme_feed_run(struct rme_process *, uint64_t, uint64_t, struct rme_access *);
uint64_t __wrap_rme_next(const struct rme_process *, struct rme_access *);
uint64_t __wrap_rme_leave(struct rme_process *, struct rme_access *);
uint64_t __wrap_rme_feed_append(struct rme_process *, uint64_t, uint64_t, uint64_t, struct rme_stores *, struct rme_access *);

int __real_rme_attach_within(struct rme_seat *, const char *, uint64_t, uint64_t);
int __real_rme_detach(struct rme_seat *);
void __real_log_raise(uint64_t *, uint64_t);
int __wrap_rme_attach_within(struct rme_seat *, const char *, uint64_t, uint64_t);
int __wrap_rme_detach(struct rme_seat *);
void __wrap_log_raise(uint64_t *, uint64_t);

static bool is_traced(void) { return log_steps && log_steps->traced; }
static bool singly(void) { return is_traced() && log_steps->singly; }

void in_library(void)
{
    if (!is_traced())
        return;
    log_steps->silent = 0;
    __asm__ volatile("int3" ::: "memory");
}

void in_test(void)
{
    if (log_steps)
        log_steps->silent = 1;
}

static uint64_t in_library_again(uint64_t answer) { return in_library(), answer; }

uint64_t __wrap_rme_start_run(struct rme_process *p, const struct rme_call *call, struct rme_access *access)
{
    in_test();
    return in_library_again(singly() ? rme_start(p, call, access) : __real_rme_start_run(p, call, access));
}

uint64_t __wrap_rme_feed_run(struct rme_process *p, uint64_t zeros, uint64_t value, struct rme_access *access)
{
    in_test();
    return in_library_again(singly() ? rme_feed(p, value, access) : __real_rme_feed_run(p, zeros, value, access));
}

uint64_t __wrap_rme_next(const struct rme_process *p, struct rme_access *access)
{
    in_test();
    return in_library_again(__real_rme_next(p, access));
}

uint64_t __wrap_rme_leave(struct rme_process *p, struct rme_access *access)
{
    in_test();
    return in_library_again(singly() ? 0 : __real_rme_leave(p, access));
}

uint64_t __wrap_rme_feed_append(struct rme_process *p, uint64_t closed, uint64_t count, uint64_t last, struct rme_stores *stores,
                                struct rme_access *access)
{
    in_test();
    return in_library_again(singly() ? 0 : __real_rme_feed_append(p, closed, count, last, stores, access));
}

/* The stores that are none of the machine's, and follow one another without a call of the system between them. */
int __wrap_rme_attach_within(struct rme_seat *seat, const char *path, uint64_t index, uint64_t milliseconds)
{
    const int answer = __real_rme_attach_within(seat, path, index, milliseconds);
    in_library();
    return answer;
}

int __wrap_rme_detach(struct rme_seat *seat)
{
    const int answer = __real_rme_detach(seat);
    in_library();
    return answer;
}

void __wrap_log_raise(uint64_t *word, uint64_t to)
{
    __real_log_raise(word, to);
    in_library();
}
