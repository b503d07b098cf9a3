/* Recovery on behalf of the dead: a living process releases the place of one that nobody starts again, by calls with a seat at the dead
 * one's index. */
#include "shim.h"

#include <poll.h>
#include <stdatomic.h>
#include <stdio.h>
#include <sys/stat.h>

/* ---- a reaper's lease ---- */

/* A reaper's lease is held by a descriptor of its own, which a child of fork closes, so that no child keeps it after the reaper's end.
 * Each entry is such a descriptor plus one, or 0 where it is free. */
static _Atomic int leases[MOST_PROCS];
static _Thread_local int ends[2]; /* of a pipe, by which a child says that it has closed all */

static void before_fork(void)
{
    bool some = false;
    for (unsigned i = 0; i < MOST_PROCS; i++)
        some = some || leases[i];
    if (!some || pipe2(ends, O_CLOEXEC))
        ends[0] = ends[1] = -1;
}

static void close_ends(void)
{
    for (unsigned i = 0; i < 2; i++)
        if (ends[i] >= 0)
            close(ends[i]);
}

/* After a fork the parent waits until the child has closed them: then a parent that is killed leaves no lease. */
static void wait_for_child(void)
{
    struct pollfd said = {.fd = ends[0], .events = POLLIN};
    if (ends[0] >= 0)
        poll(&said, 1, 100 /* milliseconds, for a child that was killed */);
    close_ends();
}

static void close_in_child(void)
{
    for (unsigned i = 0; i < MOST_PROCS; i++) {
        const int file = atomic_exchange(&leases[i], 0) - 1;
        if (file >= 0)
            close(file);
    }
    const bool said = ends[1] >= 0 && write(ends[1], "", 1) == 1;
    (void)said; /* else nobody waits for it */
    close_ends();
}

static void close_at_fork(void) { pthread_atfork(before_fork, wait_for_child, close_in_child); }

/* Replaces an entry. Answers whether it was there. */
static bool note_lease(int was, int now)
{
    static pthread_once_t once = PTHREAD_ONCE_INIT;
    pthread_once(&once, close_at_fork);
    for (unsigned i = 0; i < MOST_PROCS; i++) {
        int there = was;
        if (atomic_compare_exchange_strong(&leases[i], &there, now))
            return true;
    }
    return false;
}

/* Opens the file anew; where that is not possible, *file is the seat's own descriptor. */
static int open_anew(const struct rme_seat *own, const char *path, int *file)
{
    char name[32];
    struct stat status;
    const int error = rme_check_file(own);
    if (error)
        return error;
    snprintf(name, sizeof name, "/proc/self/fd/%d", own->file);
    *file = open(path ? path : name, O_RDWR | O_CLOEXEC | O_NONBLOCK | O_NOCTTY);
    if (*file >= 0 && (fstat(*file, &status) || status.st_dev != own->device || status.st_ino != own->inode)) {
        close(*file);
        *file = -1;
    }
    *file = *file < 0 ? own->file : *file;
    return 0;
}

/* ---- acting for the dead ---- */

/* Releases the place that was found. */
static int give_up(struct rme_seat *dead, int found, rme_repair *repair, void *context)
{
    size_t bytes;
    void *data = rme_data(dead, &bytes);
    int error = 0;
    if (found == RME_FOUND_INSIDE) {
        const int said = repair ? repair(dead, dead->machine.index, data, bytes, context) : 0;
        if (said == EINTR)
            return EINTR;
        error = said ? ENOTRECOVERABLE : rme_consistent(dead); /* unmended, the unlock ruins the lock, as with POSIX */
        error = error == EINVAL && repair ? 0 : error;         /* the repair itself has called it */
        const int left = rme_unlock(dead);
        error = error ? error : left;
    } else if (found == RME_FOUND_DOORWAY || found == RME_FOUND_WAITING) {
        error = rme_lock_within(dead, 0);
        error = error == 0 ? rme_unlock(dead) : error == ETIMEDOUT ? rme_withdraw(dead) : error;
    }
    return error == EOVERFLOW ? 0 : error; /* no number was left to take: it is out of the line */
}

/* Called with the dead one's lease. A reaper that is killed in here leaves the mark RME_ATTACHED, and beside it what was found. */
static int act_for(struct rme_seat *dead, rme_repair *repair, void *context)
{
    const uint64_t index = dead->machine.index;
    uint64_t *mark = &dead->header->marks[index], most = (uint64_t)rme_reaped_of(dead, index);
    int found = 0, error;
    if (!(load(mark) & RME_ATTACHED))
        return ESRCH;
    error = rme_recover(dead, &found);
    if (error)
        return error;
    store(mark, RME_ATTACHED + RME_REAPED * most + RME_BEGUN * (uint64_t)found);
    error = give_up(dead, found, repair, context);
    most = most > (uint64_t)found ? most : (uint64_t)found;
    if (is_attached(dead) && rests(dead)) { /* not in a child that repair has forked */
        store(line_of(dead, index) + PID, 0);
        store(mark, RME_REAPED * most);
    }
    return error;
}

/* Takes the lease of the index by this open file, and reaps. */
static int reap_by(int file, const struct rme_seat *own, uint64_t index, rme_repair *repair, void *context)
{
    struct rme_seat dead = *own;
    int error = rme_lease(file, index, F_WRLCK, REAPERS_BYTE);
    if (error)
        return error;
    dead.self = &dead;
    dead.file = -1; /* no rme_detach of it closes what is the seat's */
    dead.state = own->state + 1;
    dead.interrupted = 0;
    *dead.state = FREE;
    rme_become(&dead, index, true);
    error = act_for(&dead, repair, context);
    if (!is_attached(&dead))
        return error;
    *dead.state = ELSEWHERE;
    const int left = rme_lease(file, index, F_UNLCK, REAPERS_BYTE);
    return error ? error : left;
}

static int reap(const struct rme_seat *own, const char *path, uint64_t index, rme_repair *repair, void *context)
{
    int file;
    if (index >= own->machine.procs)
        return EINVAL;
    if (!(load(&own->header->marks[index]) & RME_ATTACHED))
        return ESRCH;
    int error = open_anew(own, path, &file);
    if (error)
        return error;
    if (file == own->file)
        return reap_by(file, own, index, repair, context);
    const bool noted = note_lease(0, file + 1);
    error = reap_by(file, own, index, repair, context);
    if (!noted || note_lease(file + 1, 0)) /* else this is a child that repair has forked, and it is closed */
        close(file);
    return error;
}

int rme_reap(const char *path, uint64_t index, rme_repair *repair, void *context)
{
    WITHOUT_CANCELLATION;
    struct rme_seat s;
    int error = rme_open_seat(&s, path, O_RDWR);
    if (error)
        return error;
    error = reap(&s, path, index, repair, context);
    rme_close_seat(&s);
    return error;
}

int rme_reap_all(const char *path, rme_repair *repair, void *context, uint64_t *reaped)
{
    WITHOUT_CANCELLATION;
    struct rme_seat s;
    uint64_t done = 0;
    int first = rme_open_seat(&s, path, O_RDWR);
    const uint64_t procs = first ? 0 : s.machine.procs;
    for (uint64_t j = 0; j < procs; j++) {
        const int error = reap(&s, path, j, repair, context);
        done += error == 0 || error == ENOTRECOVERABLE;
        if (!first && error != EBUSY && error != ESRCH)
            first = error;
    }
    if (procs)
        rme_close_seat(&s);
    if (reaped)
        *reaped = done;
    return first;
}

/* Whether an error of the reaping means that the process that blocks lives, or that another reaper acts for it. */
static bool is_alive(int error) { return error == EBUSY || error == ESRCH; }

/* The least number of readings between two checks of a living process, so that the process soon comes to sleep. */
enum { LEAST_TURNS = 50 };

int rme_lock_reaping_until(struct rme_seat *s, uint64_t turns, const struct timespec *until, rme_repair *repair, void *context)
{
    WITHOUT_CANCELLATION;
    struct patience may_wait = {.turns = turns, .longest = 20, .until = until, .once = true};
    struct rme_access blocked;
    uint64_t answer;
    if (until && !is_time(until))
        return EINVAL;
    int error = rme_begin_call(s);
    if (error)
        return error;
    while ((answer = rme_make_call(s, &(struct rme_call){.code = RME_LOCK}, may_wait, &blocked)) == RME_BLOCKED) {
        if (load(&s->interrupted))
            break;
        error = reap(s, NULL, blocked.place / 3, repair, context);
        if (!is_attached(s)) /* a child that repair has forked */
            return EINVAL;
        if (error && !is_alive(error) && error != ENOTRECOVERABLE)
            return rme_end_call(s, error);
        if (is_alive(error) && rme_time_left(until) == 0)
            break;
        may_wait.turns = is_alive(error) && turns < LEAST_TURNS ? LEAST_TURNS : turns;
    }
    return rme_end_lock(s, answer);
}

int rme_lock_reaping(struct rme_seat *s, uint64_t turns, rme_repair *repair, void *context)
{
    return rme_lock_reaping_until(s, turns, NULL, repair, context);
}
