/* What a lock and an unlock take, and waiting: this lock, a ticket lock that rests by pauses, yields and short sleeps (first come,
 * first served too, and lost with whoever dies), and glibc's robust mutex shared between processes (no order).
 *
 *     speed rme|ticket|mutex PROCESSES ROUNDS [SEATS]
 *         PROCESSES lock and unlock ROUNDS times each, in a file of SEATS (PROCESSES where nothing is said). It prints the ns of one
 *         entry, the processor time of one, and the share of entries at which the lock changed hands.
 *     speed rme|ticket|mutex PROCESSES empty ROUNDS
 *         The same, and nobody does anything inside: nothing is looked at.
 *     speed rme|ticket|mutex PROCESSES hold SECONDS
 *         One is inside for SECONDS. It prints how often the others were woken meanwhile, all together. */
#define _GNU_SOURCE
#include "rme.h"

#include <pthread.h>
#include <sched.h>
#include <stdatomic.h>
#include <stdio.h>
#include <stdlib.h>
#include <string.h>
#include <sys/mman.h>
#include <sys/resource.h>
#include <sys/wait.h>
#include <time.h>
#include <unistd.h>

enum kind { RME, TICKET, MUTEX };

/* Each in cache lines of its own. */
struct shared {
    _Alignas(64) pthread_mutex_t mutex;
    _Alignas(64) _Atomic uint32_t next_ticket;
    _Alignas(64) _Atomic uint32_t served;
    _Alignas(64) uint64_t last, changes, inside;
    _Alignas(64) _Atomic int ready, go;
};

static struct shared *shared;
static enum kind kind;
static struct rme_seat seat;
static uint32_t ticket;

static void wait_for_ticket(void)
{
    const struct timespec nap = {0, 50000};
    ticket = atomic_fetch_add(&shared->next_ticket, 1);
    for (uint64_t turn = 0; shared->served != ticket; turn++)
        if (turn >= 4096)
            nanosleep(&nap, NULL);
        else if (turn >= 64)
            sched_yield();
}

static void lock(void)
{
    if (kind == TICKET)
        wait_for_ticket();
    else if (kind == MUTEX ? pthread_mutex_lock(&shared->mutex) : rme_lock(&seat))
        _exit(1);
}

static void unlock(void)
{
    if (kind == TICKET)
        shared->served = ticket + 1;
    else if (kind == MUTEX ? pthread_mutex_unlock(&shared->mutex) : rme_unlock(&seat))
        _exit(1);
}

/* Whether process p is alone inside, and whether another was inside before. */
static void look(uint64_t p)
{
    if (shared->inside++ != 0)
        _exit(2);
    shared->changes += shared->last != p;
    shared->last = p;
    shared->inside--;
}

static void contend(uint64_t p, bool looks, long rounds)
{
    for (long i = 0; i < rounds; i++) {
        lock();
        if (looks)
            look(p);
        unlock();
    }
}

/* Process 0 is inside when the others come. */
static void hold(uint64_t p, unsigned seconds)
{
    if (p != 0)
        usleep(100000);
    lock();
    if (p == 0)
        sleep(seconds);
    unlock();
}

static void process(const char *path, uint64_t p, bool holds, bool looks, long rounds)
{
    if (kind == RME && rme_attach(&seat, path, p))
        _exit(3);
    shared->ready++;
    while (!shared->go)
        sched_yield();
    if (holds)
        hold(p, (unsigned)rounds);
    else
        contend(p, looks, rounds);
    _exit(0);
}

static double seconds_of(struct timeval time) { return (double)time.tv_sec + (double)time.tv_usec * 1e-6; }

static void share(void)
{
    pthread_mutexattr_t robust;
    shared = mmap(NULL, sizeof *shared, PROT_READ | PROT_WRITE, MAP_SHARED | MAP_ANONYMOUS, -1, 0);
    if (shared == MAP_FAILED)
        exit(3);
    pthread_mutexattr_init(&robust);
    pthread_mutexattr_setpshared(&robust, PTHREAD_PROCESS_SHARED);
    pthread_mutexattr_setrobust(&robust, PTHREAD_MUTEX_ROBUST);
    pthread_mutex_init(&shared->mutex, &robust);
}

int main(int count, char **word)
{
    if (count < 4)
        return 2;
    const bool holds = count > 4 && strcmp(word[3], "hold") == 0;
    const bool empty = count > 4 && strcmp(word[3], "empty") == 0;
    const uint64_t processes = strtoull(word[2], NULL, 10);
    const uint64_t seats = count > 4 && !holds && !empty ? strtoull(word[4], NULL, 10) : processes;
    const long rounds = atol(word[holds || empty ? 4 : 3]);
    int status, bad = 0;
    char path[64];
    kind = strcmp(word[1], "rme") == 0 ? RME : strcmp(word[1], "ticket") == 0 ? TICKET : MUTEX;
    snprintf(path, sizeof path, "/dev/shm/rme-speed-%d", getpid());
    if (rme_create(path, seats, 1, 1, 0))
        return 3;
    share();
    for (uint64_t p = 0; p < processes; p++)
        if (fork() == 0)
            process(path, p, holds, !empty, rounds);
    while (shared->ready < (int)processes)
        sched_yield();
    struct timespec from, to;
    clock_gettime(CLOCK_MONOTONIC, &from);
    shared->go = 1;
    while (wait(&status) > 0)
        bad |= status;
    clock_gettime(CLOCK_MONOTONIC, &to);
    unlink(path);
    struct rusage used;
    getrusage(RUSAGE_CHILDREN, &used);
    double taken = (double)(to.tv_sec - from.tv_sec) + (double)(to.tv_nsec - from.tv_nsec) * 1e-9;
    double processor = seconds_of(used.ru_utime) + seconds_of(used.ru_stime), entries = (double)rounds * (double)processes;
    if (holds)
        printf("%s %s processes that wait for one for %ld s: %ld wake-ups, %.3f s of processor time\n", word[1], word[2], rounds,
               used.ru_nvcsw, processor);
    else
        printf("%s %s processes: %.1f ns an entry, %.1f ns of processor time, changed hands at %.2f\n", word[1], word[2],
               taken * 1e9 / entries, processor * 1e9 / entries, (double)shared->changes / entries);
    return bad != 0;
}
