/* What the files of the shim share; no part of the library's interface. */
#ifndef RME_SHIM_H
#define RME_SHIM_H

#define _GNU_SOURCE
#include "rme.h"

#include <errno.h>
#include <fcntl.h>
#include <pthread.h>
#include <time.h>
#include <unistd.h>

/* A process's line in the file: its three lock words; a bit for each process that sleeps on one of them; the pid of the process
 * that attached last; how often a process of this index has entered, and how often it had to wait. */
enum { SLEEPERS = 3, PID, ENTRIES, WAITS, LINE = 8, PAGE = RME_HEADER, MOST_PROCS = 64 };
enum state { ELSEWHERE, FREE, BUSY }; /* of a seat; in a child of fork it reads ELSEWHERE */
/* In a mark beside RME_ATTACHED and RME_REAPED: what a reaper has found that has begun, and may not have ended. */
enum { RME_BEGUN = 65536 };

static inline uint64_t load(const uint64_t *word) { return __atomic_load_n(word, __ATOMIC_SEQ_CST); }
static inline void store(uint64_t *word, uint64_t value) { __atomic_store_n(word, value, __ATOMIC_SEQ_CST); }

static inline uint64_t *line_of(const struct rme_seat *s, uint64_t index) { return s->lines + index * LINE; }
static inline uint64_t *lock_word(const struct rme_seat *s, uint64_t place) { return line_of(s, place / 3) + place % 3; }
static inline uint64_t *sleepers_on(const struct rme_seat *s, uint64_t place) { return line_of(s, place / 3) + SLEEPERS; }

/* One more of what the own line counts. Nobody else stores there, and nobody goes by it. */
static inline void tally(const struct rme_seat *s, uint64_t what)
{
    uint64_t *count = line_of(s, s->machine.index) + what;
    __atomic_store_n(count, __atomic_load_n(count, __ATOMIC_RELAXED) + 1, __ATOMIC_RELAXED);
}

/* Where the caller's data begin in the file. */
static inline uint64_t data_offset(uint64_t words, uint64_t procs) { return (2 * PAGE + 8 * (words - 3 * procs) + 63) / 64 * 64; }

static inline uint64_t own_bit(const struct rme_seat *s) { return UINT64_C(1) << s->machine.index; }

/* Whether the file is open, by this struct and not by one that this is a copy of. */
static inline bool is_open(const struct rme_seat *s) { return s && s->self == s && s->header; }
/* Whether the seat has an index here: not in a child of fork, and not where it only looks. */
static inline bool is_attached(const struct rme_seat *s) { return s->state && *s->state != ELSEWHERE; }

/* Whether nothing of this process stands in the words: neither of what it does, nor of what an earlier process of its index did. */
static inline bool rests(const struct rme_seat *s)
{
    const uint64_t index = s->machine.index, *own = lock_word(s, 3 * index);
    return index < MOST_PROCS && !load(own) && !load(own + 1) && !load(own + 2);
}

static inline bool is_time(const struct timespec *time) { return time && time->tv_nsec >= 0 && time->tv_nsec < 1000000000; }

/* Opening and closing are points of cancellation, after which a seat would keep its index for good. */
static inline void restore_cancellation(const int *state) { pthread_setcancelstate(*state, NULL); }
static inline int disable_cancellation(void)
{
    int state = PTHREAD_CANCEL_ENABLE;
    pthread_setcancelstate(PTHREAD_CANCEL_DISABLE, &state);
    return state;
}
#define WITHOUT_CANCELLATION \
    __attribute__((cleanup(restore_cancellation), unused)) const int cancellation = disable_cancellation()

#pragma GCC visibility push(hidden)

/* rme.c: a call with a seat begins and ends with these. Between them a call goes to its answer, or to
 * `turns` blocked readings and one more, or to one after the first sleep, or after the time `until` (null: none), or after
 * rme_interrupt; no sleep is longer than `longest` milliseconds. */
struct patience { uint64_t turns, longest; const struct timespec *until; bool once; };
int rme_begin_call(struct rme_seat *s);
int rme_end_call(struct rme_seat *s, int error);
int rme_end_lock(struct rme_seat *s, uint64_t answer);
uint64_t rme_make_call(struct rme_seat *s, const struct rme_call *asked, struct patience may_wait, struct rme_access *access);
int64_t rme_time_left(const struct timespec *until);

/* file.c: rme_create_as with the caller's own data (null: all 0); a seat without an index; whether its descriptor is still the file's;
 * the bytes of an index's lease (F_WRLCK, F_UNLCK), by an open file; what others have of them. status.c: what reapers left for the next
 * process of an index. */
enum { REAPERS_BYTE = 1, BOTH_BYTES = 2 };
int rme_create_with(const char *path, uint64_t procs, uint64_t cap, uint64_t width, const void *data, uint64_t data_bytes, mode_t mode,
                    gid_t group);
int rme_open_seat(struct rme_seat *s, const char *path, int access);
void rme_close_seat(struct rme_seat *s);
int rme_check_file(const struct rme_seat *s);
int rme_lease(int file, uint64_t index, short type, int bytes);
int rme_life_of(const struct rme_seat *s, uint64_t index, int *life);
int rme_reaped_of(const struct rme_seat *s, uint64_t index);
void rme_become(struct rme_seat *s, uint64_t index, bool crashed);

#pragma GCC visibility pop
#endif
