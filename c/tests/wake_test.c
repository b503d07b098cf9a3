/* Whoever sleeps in rme_lock is woken by the store that it waits for, and not by the end of its nap.
 *
 *     wake_test FILE
 *
 * Waiters are traced from system call to system call: what ended their sleeps in the futex is what the kernel answers them. A
 * store that comes before the sleep, or after the end of the nap, says nothing, so each case is tried until three tries say that
 * all were woken, at most 20 times. Last, one is killed between its store and its waking: the nap ends then. */
#define _GNU_SOURCE
#include "clock.h"
#include "expect.h"
#include "rme.h"

#include <errno.h>
#include <inttypes.h>
#include <linux/futex.h>
#include <signal.h>
#include <stdio.h>
#include <stdlib.h>
#include <string.h>
#include <sys/ptrace.h>
#include <sys/syscall.h>
#include <sys/wait.h>
#include <unistd.h>

enum { PROCS = 4, TRIES = 20, WOKEN = 3 };

static const char *path;

_Noreturn void fail(const char *what, int64_t number)
{
    fprintf(stderr, "wake_test: %s: %" PRId64 "\n", what, number);
    exit(1);
}

/* ---- waiters ---- */

static pid_t begin_waiter(uint64_t index)
{
    const pid_t child = fork();
    if (child == 0) {
        struct rme_seat seat;
        alarm(60);
        expect("attach of a waiter", rme_attach(&seat, path, index), 0);
        be_traced();
        expect("lock of a waiter", rme_lock(&seat), 0);
        expect("unlock of a waiter", rme_unlock(&seat), 0);
        expect("detach of a waiter", rme_detach(&seat), 0);
        _exit(0);
    }
    return trace_from_stop(child, PTRACE_O_TRACESYSGOOD | PTRACE_O_EXITKILL);
}

/* The system call at which the waiter has stopped. */
static long stopped_call(pid_t child, struct __ptrace_syscall_info *info)
{
    const size_t bytes = sizeof *info;
    return ptrace(PTRACE_GET_SYSCALL_INFO, child, (void *)bytes, info); /* NOLINT(performance-no-int-to-ptr): as ptrace asks */
}

/* Lets the waiter run to the begin or the end of its next system call; false where it has ended instead. */
static bool next_call(pid_t child, struct __ptrace_syscall_info *info)
{
    int status = 0;
    if (ptrace(PTRACE_SYSCALL, child, NULL, NULL) || waitpid(child, &status, 0) != child)
        fail("trace of a waiter", errno);
    if (WIFEXITED(status) && WEXITSTATUS(status) == 0)
        return false;
    if (!WIFSTOPPED(status) || WSTOPSIG(status) != (SIGTRAP | 0x80))
        fail("a waiter has failed, status", status);
    if (stopped_call(child, info) <= 0)
        fail("what a waiter calls", errno);
    return true;
}

/* Runs the waiter to where it is about to sleep for the nth time. */
static void run_to_sleep(pid_t child, int times)
{
    struct __ptrace_syscall_info info;
    while (times > 0) {
        if (!next_call(child, &info))
            fail("a waiter that is blocked has ended", 0);
        times -= info.op == PTRACE_SYSCALL_INFO_ENTRY && info.entry.nr == SYS_futex && (info.entry.args[1] & 127) == FUTEX_WAIT;
    }
}

/* The waiter was let go to sleep, and the store made: what ended that sleep (0 woken, else the kernel's error). It runs to its end. */
static long end_of_sleep(pid_t child)
{
    struct __ptrace_syscall_info info;
    int status = 0;
    if (waitpid(child, &status, 0) != child || !WIFSTOPPED(status) ||
        stopped_call(child, &info) <= 0 || info.op != PTRACE_SYSCALL_INFO_EXIT)
        fail("the end of a sleep", status);
    const long ended = info.exit.rval;
    while (next_call(child, &info))
        ;
    return ended;
}

static void let_sleep(pid_t child)
{
    if (ptrace(PTRACE_SYSCALL, child, NULL, NULL))
        fail("trace of a waiter", errno);
}

/* ---- cases: who is in the way, and the store that ends it ---- */

/* The number of a holder, by rme_unlock. */
static void holder_blocks(struct rme_seat *seat) { expect("lock", rme_lock(seat), 0); }
static void holder_goes(struct rme_seat *seat)
{
    expect("unlock", rme_unlock(seat), 0);
    expect("detach", rme_detach(seat), 0);
}

/* The number of one who waits, by rme_withdraw. */
static struct rme_seat first;
static void waiting_blocks(struct rme_seat *seat)
{
    expect("attach of the first", rme_attach(&first, path, 3), 0);
    expect("lock of the first", rme_lock(&first), 0);
    expect("lock in line", rme_lock_within(seat, 1), ETIMEDOUT);
    expect("unlock of the first", rme_unlock(&first), 0);
    expect("detach of the first", rme_detach(&first), 0);
}
static void waiting_goes(struct rme_seat *seat)
{
    expect("withdraw", rme_withdraw(seat), 0);
    expect("detach", rme_detach(seat), 0);
}

/* The choosing of one who has died in its doorway, by its next lock. */
static void doorway_blocks(struct rme_seat *seat)
{
    *(volatile uint64_t *)(volatile void *)((char *)seat->header + RME_HEADER) = 1;
    expect("detach in the doorway", rme_detach(seat), EBUSY);
}
static void doorway_goes(struct rme_seat *seat)
{
    int found = 0;
    expect("attach to the doorway", rme_attach(seat, path, 0), 0);
    expect("recover", rme_recover(seat, &found), 0);
    if (found != RME_FOUND_DOORWAY)
        fail("found", found);
    expect("lock", rme_lock_within(seat, 1), ETIMEDOUT);
    expect("withdraw", rme_withdraw(seat), 0);
    expect("detach", rme_detach(seat), 0);
}

/* The number of one who has died inside, by a reaper. */
static void dead_blocks(struct rme_seat *seat)
{
    expect("lock", rme_lock(seat), 0);
    expect("detach inside", rme_detach(seat), EBUSY);
}
static void dead_goes(struct rme_seat *seat)
{
    (void)seat;
    expect("reap", rme_reap(path, 0, NULL, NULL), 0);
}

struct wake_case {
    const char *name;
    void (*blocks)(struct rme_seat *), (*goes)(struct rme_seat *);
};
static const struct wake_case cases[] = {
    {"an unlock", holder_blocks, holder_goes}, {"a withdraw", waiting_blocks, waiting_goes},
    {"a doorway", doorway_blocks, doorway_goes}, {"a reaping", dead_blocks, dead_goes},
};

/* One try with this number of waiters: how many of them were woken. */
static int try_case(const struct wake_case *tried, int waiters)
{
    struct rme_seat seat;
    pid_t child[2];
    int woken = 0;
    unlink(path);
    expect("create", rme_create(path, PROCS, 1, 1, 0), 0);
    expect("attach", rme_attach(&seat, path, 0), 0);
    tried->blocks(&seat);
    for (int k = 0; k < waiters; k++) {
        child[k] = begin_waiter(1 + (uint64_t)k);
        run_to_sleep(child[k], 8); /* so that its nap is a long one */
    }
    for (int k = 0; k < waiters; k++)
        let_sleep(child[k]);
    nap(0.002);
    tried->goes(&seat);
    for (int k = 0; k < waiters; k++)
        woken += end_of_sleep(child[k]) == 0;
    return woken;
}

/* ---- one that is killed between its store and its waking ---- */

/* Begins one that holds the lock, and unlocks when it is let go. */
static pid_t begin_holder(struct rme_seat *seat)
{
    const pid_t child = fork();
    if (child == 0) {
        expect("attach of one who dies", rme_attach(seat, path, 0), 0);
        expect("lock of one who dies", rme_lock(seat), 0);
        be_traced();
        rme_unlock(seat);
        _exit(0);
    }
    return trace_from_stop(child, PTRACE_O_TRACESYSGOOD | PTRACE_O_EXITKILL);
}

/* An unlock is stopped where it would wake, and killed there. The waiter's nap ends, and it comes in. */
static void killed_before_it_wakes(void)
{
    static struct rme_seat seat;
    struct __ptrace_syscall_info info;
    unlink(path);
    expect("create", rme_create(path, PROCS, 1, 1, 0), 0);
    const pid_t holder = begin_holder(&seat), waiter = begin_waiter(1);
    run_to_sleep(waiter, 8);
    let_sleep(waiter);
    do {
        if (!next_call(holder, &info))
            fail("an unlock wakes nobody who sleeps", 0);
    } while (info.op != PTRACE_SYSCALL_INFO_ENTRY || info.entry.nr != SYS_futex || (info.entry.args[1] & 127) != FUTEX_WAKE);
    kill(holder, SIGKILL);
    waitpid(holder, NULL, 0);
    if (end_of_sleep(waiter) == 0)
        fail("a waiter was woken by one that was killed before that", 0);
    printf("wake_test killed before it wakes: the waiter came in\n");
}

int main(int argc, char **argv)
{
    if (argc != 2)
        return 2;
    path = argv[1];
    for (size_t which = 0; which < sizeof cases / sizeof *cases; which++) {
        const int waiters = which == 0 ? 2 : 1;
        int woken = 0, tries = 0;
        for (; woken < WOKEN && tries < TRIES; tries++)
            woken += try_case(&cases[which], waiters) == waiters;
        if (woken < WOKEN)
            fail(cases[which].name, woken);
        printf("wake_test %s: woken in %d tries of %d\n", cases[which].name, woken, tries);
    }
    killed_before_it_wakes();
    unlink(path);
    return 0;
}
