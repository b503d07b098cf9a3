/* Processes that die and are not started again, and others that give up their places.
 *
 *     reap_test FOLDER SEED
 *
 * First a process that dies after each number of accesses, in turn, and is reaped. Then reapers that are killed, and restarts beside
 * reapers. */
#define _GNU_SOURCE
#include "reaping.h"

static int give_up_hope(struct rme_seat *dead, uint64_t index, void *data, size_t bytes, void *context)
{
    (void)dead, (void)index, (void)data, (void)bytes, (void)context;
    return 1;
}

static int sleep_long(struct rme_seat *dead, uint64_t index, void *data, size_t bytes, void *context)
{
    tally->answered[0]++;
    nap(context ? *(double *)context : 60);
    return repair(dead, index, data, bytes, NULL);
}

/* ---- one that dies after a number of accesses ---- */

static bool walk(struct rme_seat *seat, enum rme_code code, uint64_t *accesses)
{
    const struct rme_call call = {.code = code, .number = 1};
    struct rme_access next;
    uint64_t answer = rme_start(&seat->machine, &call, &next);
    for (; answer == 0 || answer == RME_BLOCKED || answer >= RME_LOAD; (*accesses)--) {
        if (*accesses == 0)
            kill(getpid(), SIGKILL);
        if (answer >= RME_LOAD)
            next = (struct rme_access){.place = answer - RME_LOAD};
        const uint64_t locks = 3 * senders;
        uint64_t *plain = next.place < locks ? seat->lines + next.place / 3 * 8 + next.place % 3 : seat->words + (next.place - locks);
        _Atomic uint64_t *word = (_Atomic uint64_t *)plain;
        uint64_t read = next.store ? 0 : atomic_load(word);
        if (next.store)
            atomic_store(word, next.value);
        answer = rme_feed(&seat->machine, read, &next);
    }
    return answer == RME_CLEAN || answer == RME_STORED || answer == RME_UNLOCKED;
}

/* Whether it was killed: after more accesses than there are it ends. */
static bool die_after(uint64_t index, uint64_t accesses)
{
    pid_t child = fork();
    if (child == 0) {
        static struct rme_seat seat;
        EXPECT(rme_attach(&seat, path, index), 0);
        bool fine = walk(&seat, RME_LOCK, &accesses) && walk(&seat, RME_APPEND, &accesses) && walk(&seat, RME_UNLOCK, &accesses);
        _exit(!fine || rme_detach(&seat));
    }
    int status = 0;
    waitpid(child, &status, 0);
    EXPECT(status == 0 || (WIFSIGNALED(status) && WTERMSIG(status) == SIGKILL), true);
    return status != 0;
}

static int found_at(uint64_t index)
{
    struct rme_seat seat;
    struct rme_index status;
    EXPECT(rme_inspect(&seat, path), 0);
    EXPECT(rme_index_status(&seat, index, &status), 0);
    EXPECT(rme_detach(&seat), 0);
    EXPECT(status.life, RME_DEAD);
    return status.found;
}

static void expect_reaped(uint64_t index, int found)
{
    struct rme_seat seat;
    struct rme_index status;
    EXPECT(rme_inspect(&seat, path), 0);
    EXPECT(rme_index_status(&seat, index, &status), 0);
    EXPECT(rme_detach(&seat), 0);
    EXPECT(status.life, RME_ABSENT);
    EXPECT(status.found, RME_FOUND_IDLE);
    EXPECT(status.reaped, found);
    EXPECT(rme_reap(path, index, repair, NULL), ESRCH);
    EXPECT(rme_attach(&seat, path, index), 0);
    EXPECT(rme_crashed(&seat), false);
    EXPECT(rme_reaped(&seat), found);
    EXPECT(rme_detach(&seat), 0);
    EXPECT(rme_attach(&seat, path, index), 0);
    EXPECT(rme_reaped(&seat), 0);
    EXPECT(rme_detach(&seat), 0);
}

/* Beside nobody, or beside one that is inside: then it dies waiting at the latest. */
static void deaths_at_each_access(bool beside)
{
    unsigned seen[RME_FOUND_INSIDE + 1] = {0};
    for (uint64_t accesses = 0; accesses < (beside ? 20 : 60); accesses++) {
        struct rme_seat holder;
        make(3, 4);
        EXPECT(rme_attach(&holder, path, 2), 0);
        if (beside)
            EXPECT(rme_lock(&holder), 0);
        if (!die_after(0, accesses))
            break;
        int found = found_at(0);
        seen[found]++;
        EXPECT(rme_reap(path, 0, repair, NULL), 0);
        EXPECT(tally->repairs, found == RME_FOUND_INSIDE);
        expect_reaped(0, found);
        if (beside)
            EXPECT(rme_unlock(&holder), 0);
        EXPECT(rme_lock_within(&holder, 0), 0);
        EXPECT(rme_unlock(&holder), 0);
        EXPECT(rme_detach(&holder), 0);
    }
    EXPECT(seen[RME_FOUND_IDLE] && seen[RME_FOUND_DOORWAY] && seen[RME_FOUND_WAITING], true);
    EXPECT(seen[RME_FOUND_INSIDE] && seen[RME_FOUND_LEFT], !beside);
}

static void die_inside(uint64_t index)
{
    EXPECT(die_after(index, 3 * senders + 8), true);
    EXPECT(found_at(index), RME_FOUND_INSIDE);
}

/* ---- what the calls answer ---- */

static void answers(void)
{
    struct rme_seat seat, living;
    uint64_t index = 9, reaped = 9;
    bool alive = true;
    make(3, 4);
    EXPECT(rme_reap(path, 3, repair, NULL), EINVAL);
    EXPECT(rme_reap(path, 0, repair, NULL), ESRCH);
    EXPECT(rme_attach(&living, path, 1), 0);
    EXPECT(rme_reap(path, 1, repair, NULL), EBUSY);
    EXPECT(rme_lock(&living), 0);
    EXPECT(rme_attach(&seat, path, 2), 0);
    EXPECT(rme_blocker(&seat, &index, &alive), EINVAL);
    EXPECT(rme_lock_within(&seat, 3), ETIMEDOUT);
    EXPECT(rme_blocker(&seat, &index, &alive), 0);
    EXPECT(index == 1 && alive, true);
    EXPECT(rme_unlock(&living), 0);
    EXPECT(rme_lock(&seat), 0);
    EXPECT(rme_unlock(&seat), 0);
    die_inside(0);
    EXPECT(rme_lock_within(&seat, 3), ETIMEDOUT);
    EXPECT(rme_blocker(&seat, &index, &alive), 0);
    EXPECT(index == 0 && !alive, true);
    EXPECT(rme_lock_reaping(&seat, 3, repair, NULL), 0);
    EXPECT(tally->repairs, 1);
    EXPECT(rme_unlock(&seat), 0);
    EXPECT(rme_reap_all(path, repair, NULL, &reaped), 0);
    EXPECT(reaped, 0);
    die_inside(0);
    EXPECT(rme_detach(&living), 0);
    EXPECT(rme_reap_all(path, give_up_hope, NULL, &reaped), ENOTRECOVERABLE);
    EXPECT(reaped, 1);
    EXPECT(rme_lock(&seat), ENOTRECOVERABLE);
    EXPECT(rme_detach(&seat), 0);
}

/* Makes a file for two, in which process 0 is stopped inside. */
static pid_t stop_inside(void)
{
    make(2, 4);
    const pid_t child = fork();
    if (child == 0) {
        static struct rme_seat own;
        EXPECT(rme_attach(&own, path, 0), 0);
        EXPECT(rme_lock(&own), 0);
        raise(SIGSTOP);
        EXPECT(rme_unlock(&own), 0);
        _exit(rme_detach(&own));
    }
    waitpid(child, NULL, WUNTRACED);
    return child;
}

/* Begins one that sends a signal to another process after some seconds. */
static pid_t begin_signaller(pid_t to, double seconds, int signal, struct rme_seat *parents)
{
    const pid_t child = fork();
    if (child == 0) {
        rme_detach(parents);
        EXPECT(rme_attach_within(parents, path, 1, 10), EBUSY);
        nap(seconds);
        kill(to, signal);
        _exit(0);
    }
    return child;
}

/* One that is stopped inside lives: nobody takes its place. */
static void stopped_inside(void)
{
    struct rme_seat seat;
    const pid_t child = stop_inside();
    EXPECT(rme_attach(&seat, path, 1), 0);
    const pid_t waiter = begin_signaller(child, 0.5, SIGCONT, &seat);
    double from = now();
    EXPECT(rme_lock_reaping(&seat, 10, repair, NULL), 0);
    EXPECT(now() - from > 0.4, true);
    EXPECT(tally->repairs, 0);
    EXPECT(rme_unlock(&seat), 0);
    EXPECT(rme_detach(&seat), 0);
    expect_ended(child);
    expect_ended(waiter);
}

/* Whoever sleeps in rme_lock_reaping looks again and again: one who dies meanwhile is reaped soon, not after all the readings. */
static void killed_while_another_sleeps(void)
{
    struct rme_seat seat;
    const pid_t child = stop_inside();
    EXPECT(rme_attach(&seat, path, 1), 0);
    const pid_t killer = begin_signaller(child, 0.3, SIGKILL, &seat);
    double from = now();
    EXPECT(rme_lock_reaping(&seat, 1000, repair, NULL), 0);
    EXPECT(now() - from < 3, true);
    EXPECT(tally->repairs, 1);
    EXPECT(rme_unlock(&seat), 0);
    EXPECT(rme_detach(&seat), 0);
    expect_killed(child);
    expect_ended(killer);
}

/* ---- reapers that are killed, and restarts beside them ---- */

static void killed_in_repair(bool in_lock)
{
    struct rme_seat seat;
    make(3, 4);
    die_inside(0);
    pid_t reaper = fork();
    if (reaper == 0) {
        if (!in_lock)
            _exit(rme_reap(path, 0, sleep_long, NULL));
        EXPECT(rme_attach(&seat, path, 1), 0);
        _exit(rme_lock_reaping(&seat, 3, sleep_long, NULL));
    }
    while (tally->answered[0] == 0)
        nap(0.001);
    EXPECT(rme_reap(path, 0, repair, NULL), EBUSY);
    EXPECT(rme_attach(&seat, path, 0), EBUSY);
    EXPECT(rme_attach_within(&seat, path, 0, 5), ETIMEDOUT);
    kill(reaper, SIGKILL);
    expect_killed(reaper);
    EXPECT(rme_reap(path, 0, repair, NULL), 0);
    EXPECT(tally->repairs, 1);
    expect_reaped(0, RME_FOUND_INSIDE);
    if (in_lock)
        EXPECT(rme_reap(path, 1, repair, NULL), 0);
}

/* Reapers are killed at any instant; the last one, or a restart, learns at the end what the first had found. */
static void killed_anywhere(void)
{
    unsigned reaped_by_killed = 0;
    for (int round = 0; round < 40; round++) {
        make(3, 4);
        die_inside(0);
        for (int k = 0; k < 3; k++) {
            pid_t reaper = fork();
            if (reaper == 0)
                _exit(rme_reap(path, 0, repair, NULL) % 256);
            nap(drand48() * 0.001);
            kill(reaper, SIGKILL);
            waitpid(reaper, NULL, 0);
        }
        int error = rme_reap(path, 0, repair, NULL);
        EXPECT(error == 0 || error == ESRCH, true);
        reaped_by_killed += error == ESRCH;
        EXPECT(tally->repairs >= 1, true);
        expect_reaped(0, RME_FOUND_INSIDE);
    }
    printf("reapers killed: 120, places that they had given up before: %u of 40\n", reaped_by_killed);
}

static void restarts_beside_reapers(void)
{
    double shortly = 0.002;
    unsigned crashed = 0, reaped = 0;
    for (int round = 0; round < 100; round++) {
        struct rme_seat seat;
        make(3, 4);
        die_inside(0);
        pid_t reaper = fork();
        if (reaper == 0) {
            int error = rme_reap(path, 0, sleep_long, &shortly);
            _exit(error && error != EBUSY && error != ESRCH);
        }
        if (round % 2) /* else the restart is the first, as a rule */
            nap(drand48() * 0.004);
        EXPECT(rme_attach_within(&seat, path, 0, 10000), 0);
        EXPECT(rme_crashed(&seat) || rme_reaped(&seat) == RME_FOUND_INSIDE, true);
        crashed += rme_crashed(&seat);
        reaped += !rme_crashed(&seat);
        EXPECT(rme_lock(&seat), rme_crashed(&seat) ? EOWNERDEAD : 0);
        if (rme_crashed(&seat))
            EXPECT(rme_consistent(&seat), 0);
        EXPECT(rme_unlock(&seat), 0);
        EXPECT(rme_detach(&seat), 0);
        expect_ended(reaper);
    }
    printf("restarts beside reapers: %u crashed, %u reaped\n", crashed, reaped);
    EXPECT(crashed && reaped, true);
}

int main(int count, char **word)
{
    if (count != 3)
        return 2;
    begin_tally(word[1], atol(word[2]));
    deaths_at_each_access(false);
    deaths_at_each_access(true);
    answers();
    stopped_inside();
    killed_while_another_sleeps();
    killed_in_repair(false);
    killed_in_repair(true);
    killed_anywhere();
    restarts_beside_reapers();
    unlink(path);
    return 0;
}
