/* Senders of which some are killed for good, while the others give up their places.
 *
 *     doomed_test FOLDER ROUNDS SEED
 *
 * ROUNDS rounds of four senders of which two are killed for good, and rounds of 2, 16 and 64 of which half are, or as many as are
 * drawn, at most all: those that are left send all their messages, each stands once and in its sender's order, no two were inside,
 * and what those who died inside left half done in the caller's data was repaired. */
#define _GNU_SOURCE
#include "reaping.h"

#include <sched.h>

enum { MESSAGES = 40, MOST_WORDS = 3 * MOST + 13 + MOST + 5 * MOST * MESSAGES };

/* One that is doomed goes in and out after its messages too, until it is killed. */
static void sender(uint64_t p, bool doomed, long seed)
{
    static struct rme_seat seat;
    srand48(seed);
    const uint64_t last = doomed ? UINT64_MAX : MESSAGES;
    alarm(120);
    EXPECT(rme_attach(&seat, path, p), 0);
    struct counted *counted = rme_data(&seat, NULL);
    for (uint64_t number = 1; number <= last; number++) {
        const uint64_t value[3] = {p * 1000003 + number * 7, p, number};
        EXPECT(rme_lock_reaping(&seat, 50, repair, NULL), 0);
        if (atomic_exchange(&tally->owner, p + 1) != 0 || counted->first != counted->second)
            tally->overlaps++;
        counted->first++;
        if (number % 4 == 0)
            nap(drand48() * 0.0003);
        if (number <= MESSAGES) {
            EXPECT(rme_append(&seat, number, value), 0);
            tally->answered[p] = number;
        }
        counted->second++;
        tally->owner = 0;
        EXPECT(rme_unlock(&seat), 0);
    }
    EXPECT(rme_detach(&seat), 0);
    _exit(0);
}

/* Kills the doomed one after the other, mostly inside. */
static void kill_doomed(const pid_t *child, const bool *doomed)
{
    for (uint64_t p = 0; p < senders; p++) {
        if (!doomed[p])
            continue;
        nap(drand48() * 0.002);
        if (drand48() < 0.7)
            for (double end = now() + 0.02; tally->owner != p + 1 && now() < end;)
                sched_yield();
        kill(child[p], SIGKILL);
    }
}

static void check_end(const bool *doomed)
{
    struct rme_seat seat;
    static uint64_t words[MOST_WORDS];
    uint64_t next[MOST] = {0}, reaped;
    struct rme_message m;
    EXPECT(rme_reap_all(path, repair, NULL, &reaped), 0);
    EXPECT(rme_inspect(&seat, path), 0);
    for (uint64_t at = 0; rme_read_from(&seat, at, &m, 1) == 1; at++) {
        EXPECT(m.sender < senders, true);
        EXPECT(m.number, ++next[m.sender]);
        EXPECT(m.value[0] == m.sender * 1000003 + m.number * 7 && m.value[1] == m.sender && m.value[2] == m.number, true);
    }
    for (uint64_t p = 0; p < senders; p++) {
        EXPECT(next[p] == tally->answered[p] || next[p] == tally->answered[p] + 1, true);
        if (!doomed[p])
            EXPECT(next[p], MESSAGES);
    }
    EXPECT(rme_copy_words(&seat, words, MOST_WORDS), seat.count);
    for (uint64_t i = 0; i < 3 * senders; i++)
        EXPECT(words[i], 0);
    EXPECT(rme_content_rule(words, seat.count, senders, senders * MESSAGES, 3, RME_LIMIT), RME_LAWFUL);
    const struct counted *counted = rme_data(&seat, NULL);
    EXPECT(counted->first, counted->second);
    EXPECT(rme_detach(&seat), 0);
}

static void round_of(uint64_t procs, uint64_t deaths, long seed)
{
    pid_t child[MOST];
    bool doomed[MOST] = {false};
    make(procs, procs * MESSAGES);
    while (deaths > 0) {
        const uint64_t p = (uint64_t)(drand48() * (double)procs);
        deaths -= !doomed[p];
        doomed[p] = true;
    }
    for (uint64_t p = 0; p < procs; p++) {
        child[p] = fork();
        if (child[p] == 0)
            sender(p, doomed[p], seed + (long)p);
    }
    kill_doomed(child, doomed);
    for (uint64_t p = 0; p < procs; p++) {
        if (doomed[p])
            expect_killed(child[p]);
        else
            expect_ended(child[p]);
    }
    EXPECT(tally->overlaps, 0);
    EXPECT(tally->strangers, 0);
    check_end(doomed);
}

/* Where it is drawn, in each second round another number dies, at most all. */
static void rounds_of(uint64_t procs, uint64_t deaths, bool drawn, long rounds, long seed)
{
    uint64_t repairs = 0, dead = 0;
    double from = now();
    for (long round = 0; round < rounds; round++) {
        const uint64_t some = drawn && round % 2 ? 1 + (uint64_t)(drand48() * (double)procs) : deaths;
        round_of(procs, some, seed + 100 * round);
        repairs += tally->repairs;
        dead += some;
    }
    printf("%" PRIu64 " senders%s: %ld rounds, killed for good %" PRIu64 ", repairs %" PRIu64 ", %.1f s\n", procs,
           drawn ? "" : " of which two die", rounds, dead, repairs, now() - from);
}

int main(int count, char **word)
{
    if (count != 4)
        return 2;
    long rounds = atol(word[2]), seed = atol(word[3]);
    begin_tally(word[1], seed);
    rounds_of(4, 2, false, rounds, seed);
    rounds_of(2, 1, true, rounds, seed);
    rounds_of(16, 8, true, rounds, seed);
    rounds_of(64, 32, true, (rounds + 3) / 4, seed);
    unlink(path);
    return 0;
}
