/* The shim: makes each access that the machine names, as one sequentially consistent load or store, and waits. Nothing here is
 * proved. */
#include "shim.h"

#include <linux/futex.h>
#include <sched.h>
#include <sys/syscall.h>

_Static_assert(sizeof(struct rme_process) == 20 * 8 && sizeof(struct rme_call) == 10 * 8 && sizeof(struct rme_access) == 3 * 8,
               "the machine's numbers are u64, one after the other");
_Static_assert(__atomic_always_lock_free(8, 0), "a word is one atomic u64");
#define INLINED inline __attribute__((always_inline))

/* ---- accesses ---- */

/* A futex has 32 bits: the lower half of a word. */
static __attribute__((noinline)) void futex(uint64_t *word, int operation, uint32_t value, const struct timespec *most)
{
    syscall(SYS_futex, (uint32_t *)word + (__BYTE_ORDER__ == __ORDER_BIG_ENDIAN__), operation, value, most, NULL, 0);
}

/* How many accesses were made, and what the last one read (0 for a store). Those before it read 0. */
struct made { uint64_t count, seen; };

static inline bool reads_zero(const uint64_t *word, struct made *made)
{
    made->count++;
    return (made->seen = load(word)) == 0;
}

/* Stores lock word k of a line. Processes wait only for lock words to become 0: a store of 0 wakes those who sleep on the word. */
static inline void put(uint64_t *line, uint64_t k, uint64_t value, struct made *made)
{
    store(line + k, value);
    made->count++;
    if (value == 0 && k < 2 && __builtin_expect(load(line + SLEEPERS) != 0, 0))
        futex(line + k, FUTEX_WAKE, MOST_PROCS, NULL);
}

/* Makes the access that the machine has named. A place outside the block reads 0 and is never stored to: only a corrupt file leads the
 * machine there. */
static inline void take(struct rme_seat *s, const struct rme_access *access, struct made *made)
{
    const uint64_t locks = 3 * s->machine.procs, place = access->place;
    if (place >= s->count)
        s->astray = true;
    else if (access->store && place < locks)
        put(s->lines + place / 3 * LINE, place % 3, access->value, made);
    else if (access->store)
        store(s->words + (place - locks), access->value);
    else
        made->seen = load(place < locks ? lock_word(s, place) : s->words + (place - locks));
    made->count = 1;
}

/* The rest of a scan, from a line on: loads words k to `number` of each other process, up to the first that is not 0. */
static inline bool scan(const uint64_t *own, const uint64_t *line, const uint64_t *end, const uint64_t k, struct made *made)
{
    for (; line < end; line += LINE)
        if (line != own && ((k == 0 && !reads_zero(line, made)) || !reads_zero(line + 1, made)))
            return false;
    return true;
}

/* Makes the accesses of a run (rme_machine.h) up to the first word that is not 0. */
static INLINED void run(const struct rme_seat *s, uint64_t answer, uint64_t number, struct made *made)
{
    uint64_t *lines = s->lines, *own = lines + s->machine.index * LINE, *end = lines + s->machine.procs * LINE;
    switch (answer) {
    case RME_LOCKS:
        if (!reads_zero(own, made) || !reads_zero(own + 1, made) || !reads_zero(own + 2, made))
            return;
        /* fallthrough */
    case RME_OPENS:
        put(own, 0, 1, made);
        if (!scan(own, lines, end, 1, made) || answer == RME_OPENS)
            return;
        /* fallthrough */
    case RME_TAKES:
        put(own, 1, number, made);
        put(own, 0, 0, made);
        if (!scan(own, lines, end, 0, made) || answer == RME_TAKES)
            return;
        /* fallthrough */
    case RME_MARKS:
        put(own, 2, 1, made);
        reads_zero(s->words, made);
        return;
    case RME_LEAVES:
        put(own, 1, 0, made);
        put(own, 2, 0, made);
        return;
    default:
        scan(own, lines + answer % MOST_PROCS * LINE, end, answer < RME_LOOKS, made);
    }
}

/* ---- waiting ---- */

enum { LEAST_PAUSES = 16, MOST_PAUSES = 2000, YIELDS = 100, AT_ONCE = 3000 /* ticks: about a microsecond */ };

/* The nanoseconds until this time; without a time, longer than any sleep. */
int64_t rme_time_left(const struct timespec *until)
{
    enum { BILLION = 1000000000 };
    struct timespec now;
    if (!until)
        return INT64_MAX;
    clock_gettime(CLOCK_MONOTONIC, &now);
    const int64_t seconds = (int64_t)until->tv_sec - (int64_t)now.tv_sec;
    const int64_t left = seconds > BILLION ? INT64_MAX : seconds * BILLION + until->tv_nsec - now.tv_nsec;
    return left > 0 ? left : 0;
}

/* After a blocked reading: for each process that blocks, it pauses at first, then yields, then sleeps. A yield that returns at once
 * shows that a processor is free: then more pauses cost nothing. Whoever stores 0 sees the sleeper's bit, or else the kernel sees the 0
 * here and does not sleep. Sleeps are bounded, since a process may die between its store and its wake. */
static __attribute__((noinline)) void rest(struct rme_seat *s, uint64_t place, uint64_t seen, struct patience *may_wait)
{
    uint64_t *sleepers = sleepers_on(s, place);
    const int64_t left = rme_time_left(may_wait->until), longest = (int64_t)may_wait->longest * 1000000;
    const struct timespec most = {0, (long)(left < longest ? left : longest)};
    if (!s->blocked_at)
        tally(s, WAITS);
    if (s->blocked_at != sleepers)
        s->turn = s->yields = 0;
    s->blocked_at = sleepers;
    if (left == 0 || load(&s->interrupted)) {
        may_wait->turns = 0;
    } else if (s->turn++ < s->pauses + LEAST_PAUSES) {
        __builtin_ia32_pause();
    } else if (s->yields++ < YIELDS) {
        const uint64_t before = __builtin_ia32_rdtsc();
        sched_yield();
        const uint64_t more = s->pauses < MOST_PAUSES ? 2 * s->pauses + LEAST_PAUSES : s->pauses;
        s->pauses = __builtin_ia32_rdtsc() - before > AT_ONCE ? s->pauses / 2 : more;
    } else {
        __atomic_fetch_or(sleepers, own_bit(s), __ATOMIC_SEQ_CST);
        futex(lock_word(s, place), FUTEX_WAIT, (uint32_t)seen, &most);
        __atomic_fetch_and(sleepers, ~own_bit(s), __ATOMIC_SEQ_CST);
        if (may_wait->once)
            may_wait->turns = 0;
    }
}

/* Goes on with the call until its answer, or for as long as it may wait, from the machine's answer and what the last access read. */
static uint64_t finish(struct rme_seat *s, uint64_t answer, struct made made, struct rme_access *access, struct patience may_wait)
{
    while (answer == 0 || answer >= RME_LOAD || (answer == RME_BLOCKED && may_wait.turns-- > 0)) {
        if (answer == RME_BLOCKED)
            rest(s, access->place, made.seen, &may_wait);
        made = (struct made){0, 0};
        if (answer >= RME_RUN)
            run(s, answer, answer == RME_LOCKS ? 1 : access->value, &made);
        else if (answer >= RME_LOAD)
            reads_zero(lock_word(s, answer - RME_LOAD), &made);
        else
            take(s, access, &made);
        answer = rme_feed_run(&s->machine, made.count - 1, made.seen, access);
    }
    return answer;
}

static int error_of(uint64_t answer)
{
    static const int errors[RME_DONE + 1] = {
        [RME_CALL_UNDER_WAY] = EBUSY, [RME_NOT_OWNER] = EPERM, [RME_ALREADY_IN] = EDEADLK, [RME_UNMENDED] = EOWNERDEAD,
        [RME_BLOCKED] = ETIMEDOUT, [RME_OWNER_DIED] = EOWNERDEAD, [RME_NUMBERS_SPENT] = EOVERFLOW,
        [RME_NOT_RECOVERABLE] = ENOTRECOVERABLE, [RME_ALREADY] = EALREADY, [RME_OUT_OF_ORDER] = EINVAL, [RME_FULL] = ENOSPC,
        [RME_CLOSED] = EPIPE, [RME_ALREADY_CLOSED] = EALREADY,
    };
    return answer > RME_DONE || (answer < RME_BLOCKED && errors[answer] == 0) ? EINVAL : errors[answer]; /* the other refusals */
}

/* ---- calls ---- */

int rme_begin_call(struct rme_seat *s)
{
    uint64_t was = FREE;
    if (s && s->self == s && s->state && __atomic_compare_exchange_n(s->state, &was, BUSY, false, __ATOMIC_ACQUIRE, __ATOMIC_RELAXED))
        return 0;
    return was == BUSY ? EBUSY : EINVAL;
}

int rme_end_call(struct rme_seat *s, int error)
{
    error = s->astray ? EBADMSG : error;
    s->astray = false;
    __atomic_store_n(s->state, FREE, __ATOMIC_RELEASE);
    return error;
}

/* Ends a call of RME_LOCK. */
int rme_end_lock(struct rme_seat *s, uint64_t answer)
{
    int error = error_of(answer);
    if (answer == RME_CLEAN || answer == RME_OWNER_DIED)
        tally(s, ENTRIES);
    else if (answer == RME_BLOCKED && __atomic_exchange_n(&s->interrupted, 0, __ATOMIC_SEQ_CST))
        error = EINTR;
    return rme_end_call(s, error);
}

/* An append, by one feed of the words that it loads first. It stores data words only; as in `take`, none outside the block. */
static uint64_t append(struct rme_seat *s, struct rme_access *access)
{
    uint64_t *const words = s->words;
    const uint64_t locks = 3 * s->machine.procs, size = s->count - locks, own = 10 + s->machine.width + s->machine.index;
    const uint64_t closed = load(words + 1), count = load(words + 2), last = load(words + own);
    struct rme_stores stores;
    if (!rme_feed_append(&s->machine, closed, count, last, &stores, access))
        return 0;
    for (const struct rme_access *each = stores.each; each < stores.each + stores.count; each++)
        if (each->place - locks < size)
            store(words + (each->place - locks), each->value);
        else
            s->astray = true;
    return stores.answer;
}

/* Makes the call until its answer, or for as long as it may wait. Mostly a lock is one run, and so is an unlock. A lock that was left
 * after ETIMEDOUT is still under way: it goes on where it waited. */
INLINED uint64_t rme_make_call(struct rme_seat *s, const struct rme_call *asked, struct patience may_wait, struct rme_access *access)
{
    struct made made = {0, 0};
    if (asked->code == RME_UNLOCK && rme_leave(&s->machine, access) == RME_UNLOCKED)
        return run(s, RME_LEAVES, 0, &made), RME_UNLOCKED;
    uint64_t answer = rme_start_run(&s->machine, asked, access);
    if (asked->code == RME_LOCK && answer == RME_LOCKS) {
        s->blocked_at = NULL;
        run(s, RME_LOCKS, 1, &made);
        answer = rme_feed_run(&s->machine, made.count - 1, made.seen, access);
    } else if (asked->code == RME_LOCK && answer == RME_CALL_UNDER_WAY)
        answer = rme_next(&s->machine, access);
    else if (asked->code == RME_APPEND && answer == 0)
        answer = append(s, access);
    return answer > RME_BLOCKED && answer < RME_LOAD ? answer : finish(s, answer, made, access, may_wait);
}

/* Where it succeeds, *got (may be null) is the board word that it has read, or else the machine's answer. */
static INLINED int call(struct rme_seat *s, const struct rme_call *asked, struct patience may_wait, uint64_t *got)
{
    struct rme_access access;
    int error = rme_begin_call(s);
    if (error)
        return error;
    uint64_t answer = rme_make_call(s, asked, may_wait, &access);
    error = rme_end_call(s, error_of(answer));
    if (got && !error)
        *got = answer == RME_WORD ? access.value : answer;
    return error;
}

/* No call but a lock is ever blocked. */
static const struct patience at_once = {0};
static const struct rme_call lock_call = {.code = RME_LOCK}, unlock_call = {.code = RME_UNLOCK};

static INLINED int lock(struct rme_seat *s, struct patience may_wait)
{
    struct rme_access access;
    const int error = rme_begin_call(s);
    return error ? error : rme_end_lock(s, rme_make_call(s, &lock_call, may_wait, &access));
}

int rme_lock(struct rme_seat *s) { return lock(s, (struct patience){.turns = UINT64_MAX, .longest = 50}); }
int rme_lock_within(struct rme_seat *s, uint64_t turns) { return lock(s, (struct patience){turns, .longest = 1}); }

int rme_lock_until(struct rme_seat *s, const struct timespec *until)
{
    if (!is_time(until))
        return EINVAL;
    return lock(s, (struct patience){.turns = UINT64_MAX, .longest = 50, .until = until});
}

/* It does not give up a place in line that an earlier lock has kept. */
int rme_trylock(struct rme_seat *s)
{
    static const struct rme_call withdraw_call = {.code = RME_WITHDRAW};
    struct rme_access access;
    int error = rme_begin_call(s);
    if (error)
        return error;
    if (rme_next(&s->machine, &access) == 0)
        return rme_end_call(s, EBUSY);
    const uint64_t answer = rme_make_call(s, &lock_call, at_once, &access);
    if (answer != RME_BLOCKED)
        return rme_end_lock(s, answer);
    error = error_of(rme_make_call(s, &withdraw_call, at_once, &access));
    return rme_end_call(s, error ? error : EAGAIN);
}

int rme_interrupt(struct rme_seat *s)
{
    if (!is_open(s) || !is_attached(s))
        return EINVAL;
    store(&s->interrupted, 1);
    return 0;
}

int rme_unlock(struct rme_seat *s) { return call(s, &unlock_call, at_once, NULL); }
int rme_consistent(struct rme_seat *s) { return call(s, &(struct rme_call){.code = RME_CONSISTENT}, at_once, NULL); }
int rme_withdraw(struct rme_seat *s) { return call(s, &(struct rme_call){.code = RME_WITHDRAW}, at_once, NULL); }
int rme_close(struct rme_seat *s) { return call(s, &(struct rme_call){.code = RME_CLOSE}, at_once, NULL); }

int rme_recover(struct rme_seat *s, int *found)
{
    uint64_t answer = 0;
    int error = call(s, &(struct rme_call){.code = RME_RECOVER}, at_once, &answer);
    if (found && !error)
        *found = (int)answer;
    return error;
}

int rme_append(struct rme_seat *s, uint64_t number, const uint64_t *value)
{
    struct rme_call asked = {.code = RME_APPEND, .number = number};
    if (!s || !value)
        return EINVAL;
    for (uint64_t j = 0; j < s->machine.width && j < 8; j++)
        asked.value[j] = value[j];
    return call(s, &asked, at_once, NULL);
}

int rme_get(struct rme_seat *s, uint64_t i, uint64_t *word)
{
    return word ? call(s, &(struct rme_call){.code = RME_GET, .number = i}, at_once, word) : EINVAL;
}

int rme_put(struct rme_seat *s, uint64_t i, uint64_t word)
{
    return call(s, &(struct rme_call){.code = RME_PUT, .number = i, .value = {word}}, at_once, NULL);
}
