/* Readers: they go from segment to segment, and sleep at the end of the last. */
#include "log.h"

#include <linux/futex.h>
#include <string.h>
#include <sys/file.h>
#include <sys/syscall.h>

static struct rme_seat *segment(struct rme_log_reader *r) { return &r->segments[r->at]; }

/* ---- opening ---- */

/* Opens the file of the named reader, and makes it if there is none. Called with the folder locked: nobody drops meanwhile. */
static int open_own(struct rme_log_reader *r, const char *path)
{
    const struct log_head *h = head_of(&r->head);
    const struct log_reader begin = {.data = {LOG_MAGIC + LOG_READER, LOG_FORMAT, h->data.identity, 0},
                                     .cursor = load(&h->first) * LOG_PLACES};
    int error = rme_attach(&r->own, path, 0);
    if (error == ENOENT) {
        error = rme_create_with(path, 1, 1, 1, &begin, sizeof begin, 0600, (gid_t)-1);
        if (!error || error == EEXIST)
            error = rme_attach(&r->own, path, 0);
    }
    if (error)
        return error;
    error = log_check(&r->own, LOG_READER, h);
    if (error)
        rme_detach(&r->own);
    return error;
}

static int open_named(struct rme_log_reader *r, const char *name)
{
    char path[RME_LOG_PATH];
    int error = log_reader_path(path, r->folder, name);
    if (error)
        return error;
    const int held = log_hold(r->folder, LOCK_SH);
    if (held < 0)
        return errno;
    error = open_own(r, path);
    close(held);
    if (error)
        return error;
    const uint64_t kept = load(&reader_of(&r->own)->cursor);
    r->cursor = (struct rme_cursor){kept / LOG_PLACES, kept % LOG_PLACES};
    return 0;
}

int rme_log_reader_open(struct rme_log_reader *r, const char *folder, const char *name)
{
    WITHOUT_CANCELLATION;
    if (!r || !folder)
        return EINVAL;
    memset(r, 0, sizeof *r);
    int error = log_open_head(&r->head, r->folder, folder);
    if (error)
        return error;
    r->cursor = (struct rme_cursor){load(&head_of(&r->head)->first), 0};
    error = name ? open_named(r, name) : 0;
    if (error)
        log_close(&r->head, LOG_ANY);
    return error;
}

int rme_log_reader_close(struct rme_log_reader *r)
{
    WITHOUT_CANCELLATION;
    if (!r || !r->head.header)
        return EINVAL;
    log_end_watcher(r);
    for (int i = 0; i < 2; i++)
        if (r->segments[i].header)
            log_close(&r->segments[i], LOG_ANY);
    if (r->own.header)
        rme_detach(&r->own);
    log_close(&r->head, LOG_ANY);
    return 0;
}

/* ---- reading ---- */

/* Opens the segment of the cursor. ENOENT: it is not made yet. */
static int face(struct rme_log_reader *r)
{
    struct rme_seat *had = segment(r), *next = &r->segments[1 - r->at];
    const uint64_t number = r->cursor.segment;
    if (had->header && r->number == number)
        return 0;
    int error = log_open_segment(next, &r->head, r->folder, number, LOG_ANY);
    if (error)
        return error;
    if (had->header && number == r->number + 1 && load(closed_word(had)) && !log_follows(had, next)) {
        log_close(next, LOG_ANY);
        return EPROTO;
    }
    if (had->header)
        log_close(had, LOG_ANY);
    r->at = 1 - r->at;
    r->number = number;
    return 0;
}

/* Moves the cursor over a seam, and counts the messages from it on in its segment: *there. */
static int look(struct rme_log_reader *r, uint64_t *there)
{
    for (;;) {
        *there = 0;
        int error = face(r);
        if (error)
            return error == ENOENT ? 0 : error;
        const bool closed = load(closed_word(segment(r)));
        const uint64_t count = load(count_word(segment(r))), place = r->cursor.place;
        if (place > count)
            return EINVAL;
        *there = count - place;
        if (*there > 0 || !closed)
            return 0;
        r->cursor = (struct rme_cursor){r->number + 1, 0};
        error = face(r);
        if (error) {
            r->cursor = (struct rme_cursor){r->number, place};
            return error == ENOENT ? 0 : error;
        }
    }
}

/* Copies messages from the segment of the cursor, with their numbers in the log. */
static uint64_t copy(struct rme_log_reader *r, struct rme_message *messages, uint64_t room)
{
    const struct rme_seat *from = segment(r);
    const uint64_t copied = rme_read_from(from, r->cursor.place, messages, room);
    for (uint64_t i = 0; i < copied; i++)
        if (messages[i].sender < MOST_PROCS)
            messages[i].number += segment_of(from)->base[messages[i].sender];
    r->cursor.place += copied;
    return copied;
}

int rme_log_read(struct rme_log_reader *r, struct rme_message *messages, uint64_t room, uint64_t *count)
{
    WITHOUT_CANCELLATION;
    uint64_t there = 0;
    int error = 0;
    if (!r || !r->head.header || !messages || !count)
        return EINVAL;
    *count = 0;
    while (*count < room && !(error = look(r, &there)) && there > 0)
        *count += copy(r, messages + *count, room - *count);
    return *count > 0 ? 0 : error; /* the next call answers the error again */
}

int rme_log_seek(struct rme_log_reader *r, struct rme_cursor cursor)
{
    if (!r || !r->head.header || cursor.segment > LOG_SEGMENTS || cursor.place > LOG_CAP)
        return EINVAL;
    r->cursor = cursor.segment > 0 ? cursor : (struct rme_cursor){load(&head_of(&r->head)->first), 0};
    return 0;
}

int rme_log_seek_end(struct rme_log_reader *r)
{
    WITHOUT_CANCELLATION;
    uint64_t there = 0;
    int error = 0;
    if (!r || !r->head.header)
        return EINVAL;
    do
        r->cursor = (struct rme_cursor){log_last_made(&r->head), 0};
    while ((error = look(r, &there)) == ENODATA);
    while (!error && there > 0) {
        r->cursor.place += there;
        error = look(r, &there);
    }
    return error;
}

int rme_log_keep(struct rme_log_reader *r)
{
    uint64_t there;
    if (!r || !r->own.header)
        return EINVAL;
    int error = rme_begin_call(&r->own);
    if (error)
        return error;
    look(r, &there); /* at the end of a closed segment the cursor moves to the next */
    store(&reader_of(&r->own)->cursor, r->cursor.segment * LOG_PLACES + r->cursor.place);
    return rme_end_call(&r->own, 0);
}

/* ---- waiting ---- */

enum { LONGEST = 100, FIRST_NAP = 100000, LONGEST_NAP = 20000000 /* milliseconds; nanoseconds */ };

static uint64_t now_in_milliseconds(void)
{
    struct timespec now;
    clock_gettime(CLOCK_MONOTONIC, &now);
    return (uint64_t)now.tv_sec * 1000 + (uint64_t)now.tv_nsec / 1000000;
}

/* Sleeps until the count changes; in a full segment, until it is closed. Whoever stores there after this reader is counted wakes it.
 * Sleeps are bounded, since a sender may die between its store and its wake. */
static int sleep_on(struct rme_seat *seat, uint64_t place, uint64_t most)
{
    uint64_t *const word = place < seat->machine.cap ? count_word(seat) : closed_word(seat);
    const uint32_t seen = place < seat->machine.cap ? (uint32_t)place : 0;
    const struct timespec time = {0, (long)most * 1000000};
    __atomic_fetch_add(&segment_of(seat)->waiters, 1, __ATOMIC_SEQ_CST);
    const long answer = syscall(SYS_futex, (uint32_t *)word + (__BYTE_ORDER__ == __ORDER_BIG_ENDIAN__), FUTEX_WAIT, seen, &time, NULL, 0);
    const int error = answer ? errno : 0;
    __atomic_fetch_sub(&segment_of(seat)->waiters, 1, __ATOMIC_SEQ_CST);
    return error == EINTR ? EINTR : 0;
}

/* Where there is no word to sleep on: no segment yet, none after a closed one, or no permission to be counted. */
static int take_nap(long *nap)
{
    const struct timespec time = {0, *nap};
    *nap = *nap < LONGEST_NAP ? 2 * *nap : *nap;
    return nanosleep(&time, NULL) ? errno : 0;
}

static int sleep_once(struct rme_log_reader *r, uint64_t most, long *nap)
{
    struct rme_seat *seat = segment(r);
    const bool faced = seat->header && r->number == r->cursor.segment && !load(closed_word(seat));
    if (!faced || (fcntl(seat->file, F_GETFL) & O_ACCMODE) != O_RDWR)
        return take_nap(nap);
    return sleep_on(seat, r->cursor.place, most < LONGEST ? most : LONGEST);
}

int rme_log_wait(struct rme_log_reader *r, uint64_t milliseconds)
{
    WITHOUT_CANCELLATION;
    const uint64_t begin = now_in_milliseconds();
    uint64_t there = 0;
    long nap = FIRST_NAP;
    if (!r || !r->head.header)
        return EINVAL;
    for (;;) {
        int error = look(r, &there);
        if (error || there > 0)
            return error;
        const uint64_t passed = now_in_milliseconds() - begin;
        if (passed >= milliseconds)
            return ETIMEDOUT;
        error = sleep_once(r, milliseconds - passed, &nap);
        if (error)
            return error;
    }
}
