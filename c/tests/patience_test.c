/* Locks that do not wait for ever: rme_trylock, a time, an interrupt; and what an index counts.
 *
 *     patience_test FOLDER [NAME] */
#define _GNU_SOURCE
#include "test.h"

#include <linux/futex.h>
#include <stdarg.h>
#include <sys/resource.h>
#include <sys/syscall.h>

static struct rme_seat holder, waiter;
static unsigned looks, sleeps;

/* In place of the C library's: counts how often a lease is asked for. */
int fcntl(int file, int command, ...)
{
    va_list rest;
    va_start(rest, command);
    void *argument = va_arg(rest, void *);
    va_end(rest);
    looks += command == F_OFD_SETLK;
    return (int)syscall(SYS_fcntl, file, command, argument);
}

/* In place of the C library's (linked with -Wl,--wrap=syscall): counts how often the shim goes to sleep. As the kernel it reads six
 * words, also where fewer are given, which no sanitizer is to see. */
long __real_syscall(long number, ...);
long __wrap_syscall(long number, ...);
__attribute__((no_sanitize("address"))) long __wrap_syscall(long number, ...)
{
    long word[6];
    va_list rest;
    va_start(rest, number);
    for (int i = 0; i < 6; i++)
        word[i] = va_arg(rest, long);
    va_end(rest);
    sleeps += number == SYS_futex && (int)word[1] == FUTEX_WAIT;
    return __real_syscall(number, word[0], word[1], word[2], word[3], word[4], word[5]);
}

static struct timespec after(double seconds)
{
    struct timespec time;
    clock_gettime(CLOCK_MONOTONIC, &time);
    const long nanoseconds = time.tv_nsec + (long)(seconds * 1e9);
    const long whole = nanoseconds / 1000000000 - (nanoseconds % 1000000000 < 0);
    return (struct timespec){time.tv_sec + whole, nanoseconds - whole * 1000000000};
}

static void begin(bool inside)
{
    make(3, 4);
    EXPECT(rme_attach(&holder, path, 0), 0);
    EXPECT(rme_attach(&waiter, path, 1), 0);
    if (inside)
        EXPECT(rme_lock(&holder), 0);
}

static struct rme_index index_of(uint64_t index)
{
    struct rme_index status;
    EXPECT(rme_index_status(&holder, index, &status), 0);
    return status;
}

/* ---- trylock ---- */

static void trylock_of_a_free_lock(void)
{
    begin(false);
    EXPECT(rme_trylock(&waiter), 0);
    EXPECT(index_of(1).found, RME_FOUND_INSIDE);
    EXPECT(rme_trylock(&waiter), EDEADLK);
    EXPECT(rme_append(&waiter, 1, &(uint64_t){7}), 0);
    EXPECT(rme_unlock(&waiter), 0);
    EXPECT(rme_trylock(&waiter), 0);
    EXPECT(rme_unlock(&waiter), 0);
}

static void trylock_of_a_lock_that_is_held(void)
{
    begin(true);
    EXPECT(rme_trylock(&waiter), EAGAIN);
    EXPECT(index_of(1).found, RME_FOUND_IDLE);
    EXPECT(rme_unlock(&waiter), EPERM);
    EXPECT(rme_withdraw(&waiter), EINVAL);
    EXPECT(rme_lock_within(&waiter, 3), ETIMEDOUT);
    EXPECT(rme_trylock(&waiter), EBUSY);
    EXPECT(index_of(1).found, RME_FOUND_WAITING);
    EXPECT(rme_unlock(&holder), 0);
    EXPECT(rme_trylock(&waiter), EBUSY);
    EXPECT(rme_lock(&waiter), 0);
}

static void trylock_after_a_death(void)
{
    make(3, 4);
    EXPECT(rme_attach(&holder, path, 2), 0);
    die(1, INSIDE);
    EXPECT(rme_trylock(&holder), EAGAIN);
    EXPECT(rme_attach(&waiter, path, 1), 0);
    EXPECT(rme_trylock(&waiter), EOWNERDEAD);
    EXPECT(rme_consistent(&waiter), 0);
    EXPECT(rme_unlock(&waiter), 0);
    EXPECT(rme_trylock(&holder), 0);
}

/* ---- a time ---- */

static void lock_until_a_time(void)
{
    begin(true);
    const double from = now();
    const struct timespec past = {0, 0}, soon = after(0.6);
    EXPECT(rme_lock_until(&waiter, &past), ETIMEDOUT);
    EXPECT(rme_lock_until(&waiter, NULL), EINVAL);
    EXPECT(rme_lock_until(&waiter, &(struct timespec){0, -1}), EINVAL);
    EXPECT(rme_lock_until(&waiter, &(struct timespec){0, 1000000000}), EINVAL);
    EXPECT(rme_lock_until(&waiter, &soon), ETIMEDOUT);
    EXPECT(now() - from >= 0.6, true);
    EXPECT(now() - from < 10, true);
    EXPECT(index_of(1).found, RME_FOUND_WAITING);
    EXPECT(rme_unlock(&holder), 0);
    EXPECT(rme_lock_until(&waiter, &past), 0);
    EXPECT(rme_unlock(&waiter), 0);
    EXPECT(rme_lock_until(&waiter, &(struct timespec){INT64_MAX, 999999999}), 0);
    EXPECT(rme_unlock(&waiter), 0);
}

static double processor_time(void)
{
    struct rusage usage;
    EXPECT(getrusage(RUSAGE_SELF, &usage), 0);
    return (double)(usage.ru_utime.tv_sec + usage.ru_stime.tv_sec) + (double)(usage.ru_utime.tv_usec + usage.ru_stime.tv_usec) * 1e-6;
}

/* Waits until process 2 sleeps on a word of this process; for four seconds at most, since on a machine that has much else to do it may
 * still yield. */
static void await_sleeper(uint64_t index)
{
    const uint64_t *sleepers = holder.lines + 8 * index + 3;
    const double end = now() + 4;
    while (!(__atomic_load_n(sleepers, __ATOMIC_SEQ_CST) & UINT64_C(1) << 2) && now() < end)
        nap(0.001);
}

/* It sleeps meanwhile, on one number after the other, and is woken. */
static void lock_until_sleeps(void)
{
    begin(true);
    EXPECT(rme_lock_within(&waiter, 3), ETIMEDOUT);
    pid_t child = fork();
    if (child == 0) {
        struct rme_seat own;
        const double from = now();
        const struct timespec late = after(30);
        EXPECT(rme_attach(&own, path, 2), 0);
        EXPECT(rme_lock_until(&own, &late), 0);
        EXPECT(now() - from < 20, true);
        EXPECT(sleeps < 50 + 40 * (now() - from), true); /* a sleep that nobody ends takes 50 milliseconds */
        EXPECT(processor_time() < 0.3, true);
        EXPECT(rme_unlock(&own), 0);
        _exit(rme_detach(&own));
    }
    await_sleeper(0);
    nap(0.5);
    EXPECT(rme_unlock(&holder), 0);
    await_sleeper(1);
    nap(0.7);
    EXPECT(rme_withdraw(&waiter), 0);
    int status = 0;
    EXPECT(waitpid(child, &status, 0), child);
    EXPECT(status, 0);
}

static void lock_reaping_until_a_time(void)
{
    begin(true);
    const double from = now();
    const struct timespec past = {0, 0}, soon = after(0.1), late = after(30);
    EXPECT(rme_lock_reaping_until(&waiter, 0, &past, NULL, NULL), ETIMEDOUT);
    EXPECT(rme_lock_reaping_until(&waiter, 0, &(struct timespec){0, -1}, NULL, NULL), EINVAL);
    EXPECT(rme_lock_reaping_until(&waiter, 0, &soon, NULL, NULL), ETIMEDOUT);
    EXPECT(now() - from >= 0.1, true);
    EXPECT(rme_lock_reaping_until(&waiter, 1000000, &soon, NULL, NULL), ETIMEDOUT);
    EXPECT(index_of(1).found, RME_FOUND_WAITING);
    EXPECT(rme_detach(&holder), EBUSY); /* it has died inside */
    EXPECT(rme_lock_reaping_until(&waiter, 3, &late, NULL, NULL), 0);
    EXPECT(now() - from < 20, true);
}

/* After one who lives it sleeps between two looks, even where it is to look at once. */
static void lock_reaping_sleeps(void)
{
    static const uint64_t turns[] = {0, 1, 100};
    begin(true);
    for (int k = 0; k < 3; k++) {
        const struct timespec soon = after(0.5);
        looks = 0;
        EXPECT(rme_lock_reaping_until(&waiter, turns[k], &soon, NULL, NULL), ETIMEDOUT);
        EXPECT(looks > 0 && looks < 100, true); /* one after each sleep of 20 milliseconds, and some before */
    }
}

/* ---- an interrupt ---- */

static void interrupt_of_the_next_wait(void)
{
    struct rme_seat none = {.header = NULL};
    begin(false);
    EXPECT(rme_interrupt(&none), EINVAL);
    EXPECT(rme_interrupt(NULL), EINVAL);
    EXPECT(rme_interrupt(&waiter), 0);
    EXPECT(rme_lock(&waiter), 0); /* it does not wait */
    EXPECT(rme_unlock(&waiter), 0);
    EXPECT(rme_lock(&holder), 0);
    EXPECT(rme_lock(&waiter), EINTR);
    EXPECT(index_of(1).found, RME_FOUND_WAITING);
    EXPECT(rme_lock_within(&waiter, 3), ETIMEDOUT); /* it was said once */
    EXPECT(rme_interrupt(&waiter), 0);
    EXPECT(rme_lock_reaping(&waiter, 3, NULL, NULL), EINTR);
    EXPECT(rme_interrupt(&waiter), 0);
    EXPECT(rme_lock_until(&waiter, &(struct timespec){INT64_MAX, 0}), EINTR);
    EXPECT(rme_withdraw(&waiter), 0);
    EXPECT(rme_detach(&waiter), 0);
}

static void interrupt_in_the_handler(int number)
{
    (void)number;
    rme_interrupt(&waiter);
}

/* Of a lock that spins, yields or sleeps; with SA_RESTART too. */
static void interrupt_by_a_signal(void)
{
    begin(true);
    for (int k = 0; k < 24; k++) {
        const struct sigaction action = {.sa_handler = interrupt_in_the_handler, .sa_flags = k % 2 ? SA_RESTART : 0};
        const useconds_t microseconds = k < 8 ? 20 : k < 16 ? 2000 : 60000;
        const double from = now();
        EXPECT(sigaction(SIGALRM, &action, NULL), 0);
        ualarm(microseconds, 0);
        EXPECT(k % 3 ? rme_lock(&waiter) : rme_lock_reaping(&waiter, 3, NULL, NULL), EINTR);
        EXPECT(now() - from < 5, true);
        EXPECT(index_of(1).found, RME_FOUND_WAITING);
    }
    EXPECT(rme_unlock(&holder), 0);
    EXPECT(rme_lock(&waiter), 0);
}

static void *lock_and_say(void *argument)
{
    *(volatile int *)argument = rme_lock(&waiter);
    return NULL;
}

static void interrupt_by_a_thread(void)
{
    volatile int answer = -1;
    pthread_t thread;
    begin(true);
    EXPECT(pthread_create(&thread, NULL, lock_and_say, (void *)&answer), 0);
    nap(0.2);
    EXPECT(answer, -1);
    EXPECT(rme_interrupt(&waiter), 0);
    EXPECT(pthread_join(thread, NULL), 0);
    EXPECT(answer, EINTR);
    EXPECT(rme_withdraw(&waiter), 0);
}

/* A signal without rme_interrupt ends nothing. */
static void ignore(int number) { (void)number; }
static void signal_alone(void)
{
    begin(true);
    signal(SIGALRM, ignore);
    ualarm(20000, 20000);
    const double from = now();
    const struct timespec soon = after(0.3);
    EXPECT(rme_lock_until(&waiter, &soon), ETIMEDOUT);
    EXPECT(now() - from >= 0.3, true);
    ualarm(0, 0);
}

/* ---- what an index counts ---- */

static void entries_and_waits(void)
{
    begin(false);
    EXPECT(index_of(1).pid, getpid());
    EXPECT(rme_pid(&holder, 1), getpid());
    EXPECT(rme_pid(&holder, 2), 0);
    EXPECT(rme_pid(&holder, 3), 0);
    for (int k = 0; k < 5; k++) {
        EXPECT(rme_lock(&waiter), 0);
        EXPECT(rme_unlock(&waiter), 0);
    }
    EXPECT(index_of(1).entries, 5);
    EXPECT(index_of(1).waits, 0);
    EXPECT(rme_lock(&holder), 0);
    EXPECT(rme_trylock(&waiter), EAGAIN);
    EXPECT(index_of(1).waits, 0);
    EXPECT(rme_lock_within(&waiter, 30), ETIMEDOUT);
    EXPECT(rme_lock_within(&waiter, 30), ETIMEDOUT);
    EXPECT(index_of(1).entries, 5);
    EXPECT(index_of(1).waits, 1);
    EXPECT(rme_unlock(&holder), 0);
    EXPECT(rme_lock(&waiter), 0);
    EXPECT(index_of(1).entries, 6);
    EXPECT(index_of(1).waits, 1);
    EXPECT(index_of(0).entries, 1);
    EXPECT(rme_unlock(&waiter), 0);
    EXPECT(rme_detach(&waiter), 0);
    EXPECT(index_of(1).pid, 0);
    EXPECT(index_of(1).entries, 6);
    die(1, INSIDE);
    EXPECT(index_of(1).pid > 0 && index_of(1).pid != getpid(), true);
    EXPECT(rme_pid(&holder, 1), 0);
    EXPECT(index_of(1).entries, 7);
    EXPECT(index_of(2).entries + index_of(2).waits + (uint64_t)index_of(2).pid, 0);
}

static const struct test tests[] = {
    TEST(trylock_of_a_free_lock), TEST(trylock_of_a_lock_that_is_held), TEST(trylock_after_a_death), TEST(lock_until_a_time),
    TEST(lock_until_sleeps), TEST(lock_reaping_until_a_time), TEST(lock_reaping_sleeps), TEST(interrupt_of_the_next_wait),
    TEST(interrupt_by_a_signal), TEST(interrupt_by_a_thread), TEST(signal_alone), TEST(entries_and_waits),
};

int main(int count, char **word) { return run_tests(count, word, tests, sizeof tests / sizeof *tests); }
