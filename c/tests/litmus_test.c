/* What one holder writes in plain writes the next one reads, and no two are inside: where all come at once.
 *
 *     litmus_test FILE PROCESSES SECONDS
 *
 * In each round the processes wait for one another, and then all lock, add one to plain words of the data, and unlock: so their
 * doorways meet, which a store that is still on its way to memory would get through. No word may have lost an addition. Then they
 * go on without waiting for one another. Where no processor is free it takes longer, a minute at most. */
#define _GNU_SOURCE
#include "clock.h"
#include "rme.h"

#include <inttypes.h>
#include <sched.h>
#include <stdatomic.h>
#include <stdio.h>
#include <stdlib.h>
#include <string.h>
#include <sys/mman.h>
#include <sys/wait.h>
#include <time.h>
#include <unistd.h>

enum { MOST = 64, WORDS = 4, APART = 8, ROUNDS_AT_ONCE = 200, LEAST_ROUNDS = 30000, MOST_SECONDS = 60 };

/* The plain words that the lock guards, each in a line of its own. */
struct guarded { uint64_t word[WORDS * APART]; };

/* Beside the file: where all wait for one another, and how often each has been inside. */
struct meeting {
    _Atomic uint64_t arrived, over;
    struct { _Alignas(64) _Atomic uint64_t entries, apart; } by[MOST];
};

static struct meeting *meeting;
static uint64_t processes;

static _Noreturn void fail(const char *what, uint64_t number)
{
    fprintf(stderr, "litmus_test: %s: %" PRIu64 "\n", what, number);
    exit(1);
}

static void meet(uint64_t round)
{
    atomic_fetch_add(&meeting->arrived, 1);
    for (unsigned k = 1; meeting->arrived < (round + 1) * processes; k++) {
        if (k % 1000 == 0) /* not all have a processor of their own */
            sched_yield();
        __builtin_ia32_pause();
    }
}

static void enter_and_add(struct rme_seat *seat, struct guarded *guarded, uint64_t p)
{
    if (rme_lock(seat))
        fail("lock", p);
    const uint64_t before = guarded->word[0];
    for (unsigned k = 0; k < WORDS; k++) {
        meeting->by[p].apart += guarded->word[k * APART] != before;
        guarded->word[k * APART] = before + 1;
    }
    meeting->by[p].entries++;
    if (rme_unlock(seat))
        fail("unlock", p);
}

static _Noreturn void run(const char *path, uint64_t p, double seconds)
{
    static struct rme_seat seat;
    if (rme_attach(&seat, path, p))
        fail("attach", p);
    struct guarded *guarded = rme_data(&seat, NULL);
    uint64_t round = 0;
    for (const double begin = now(), end = begin + seconds * 0.7; !meeting->over;) {
        for (unsigned k = 0; k < ROUNDS_AT_ONCE; k++) {
            meet(round++);
            enter_and_add(&seat, guarded, p);
        }
        meet(round++);
        if (p == 0 && ((now() > end && round > LEAST_ROUNDS) || now() > begin + MOST_SECONDS))
            meeting->over = 1;
        meet(round++);
    }
    for (const double end = now() + seconds * 0.3; now() < end;)
        for (unsigned k = 0; k < ROUNDS_AT_ONCE; k++)
            enter_and_add(&seat, guarded, p);
    _exit(rme_detach(&seat) ? 1 : 0);
}

static void judge(const char *path)
{
    struct rme_seat seat;
    uint64_t entries = 0, apart = 0;
    if (rme_inspect(&seat, path))
        fail("inspect", 0);
    const struct guarded *guarded = rme_data(&seat, NULL);
    for (uint64_t p = 0; p < processes; p++) {
        entries += meeting->by[p].entries;
        apart += meeting->by[p].apart;
    }
    for (unsigned k = 0; k < WORDS; k++)
        if (guarded->word[k * APART] != entries)
            fail("entries that plain words have lost", entries - guarded->word[k * APART]);
    if (apart)
        fail("entries that found plain words half written", apart);
    printf("litmus_test processes %" PRIu64 ": entries %" PRIu64 ", none lost\n", processes, entries);
    rme_detach(&seat);
}

int main(int count, char **word)
{
    int status = 0;
    if (count != 4)
        return 2;
    processes = strtoull(word[2], NULL, 10);
    meeting = mmap(NULL, sizeof *meeting, PROT_READ | PROT_WRITE, MAP_SHARED | MAP_ANONYMOUS, -1, 0);
    if (processes < 1 || processes > MOST || meeting == MAP_FAILED)
        return 2;
    unlink(word[1]);
    if (rme_create(word[1], processes, 1, 1, sizeof(struct guarded)))
        fail("create", 0);
    for (uint64_t p = 0; p < processes; p++)
        if (fork() == 0)
            run(word[1], p, atof(word[3]));
    for (uint64_t p = 0; p < processes; p++)
        if (wait(&status) < 0 || status)
            fail("a process has failed, status", (uint64_t)status);
    judge(word[1]);
    unlink(word[1]);
    return 0;
}
