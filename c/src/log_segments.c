/* Segments: each begins where the one before was closed. */
#include "log.h"

#include <limits.h>
#include <linux/futex.h>
#include <sys/syscall.h>

static int check_segment(const struct rme_seat *seat, const struct rme_seat *head, uint64_t number)
{
    const struct log_head *h = head_of(head);
    int error = log_check(seat, LOG_SEGMENT, h);
    if (error)
        return error;
    const struct rme_process *m = &seat->machine;
    const bool fits = m->procs == head->machine.procs && m->cap == h->cap && m->width == h->width && segment_of(seat)->number == number;
    return fits ? 0 : EPROTO;
}

/* Opens segment `number` at this index, or with LOG_ANY for reading. Whether it is dropped is checked last: the number of the first segment
 * rises before a name is removed. Whether it was made is read first: `last` rises before anything is appended to a segment.
 * Errors: ENODATA it is dropped, ENOLINK it is missing, ENOENT it is not made. */
int log_open_segment(struct rme_seat *seat, const struct rme_seat *head, const char *folder, uint64_t number, uint64_t index)
{
    enum { REAPERS_MILLISECONDS = 10000 };
    const uint64_t made = load(&head_of(head)->last);
    char path[RME_LOG_PATH];
    int error = log_segment_path(path, folder, number);
    if (!error)
        error = log_open(seat, path, index, REAPERS_MILLISECONDS);
    const bool opened = error == 0;
    if (opened)
        error = check_segment(seat, head, number);
    if (error == ENOENT && number <= made)
        error = ENOLINK;
    if (number < load(&head_of(head)->first))
        error = ENODATA;
    if (error && opened)
        log_close(seat, index);
    return error;
}

/* Makes the segment that follows a closed one, or the first (`closed` is null). Whoever makes it, and however often, makes the same. A
 * maker that was stopped for so long that its segment was dropped meanwhile removes it again.
 * Errors: ENODATA it is dropped, EOVERFLOW there are no more. */
int log_make_segment(const struct rme_seat *head, const char *folder, uint64_t number, const struct rme_seat *closed)
{
    struct log_head *h = head_of(head);
    struct log_segment next = {.data = {LOG_MAGIC + LOG_SEGMENT, LOG_FORMAT, h->data.identity, 0}, .number = number};
    char path[RME_LOG_PATH];
    if (number > LOG_SEGMENTS)
        return EOVERFLOW;
    if (closed) {
        next.before = segment_of(closed)->before + load(count_word(closed));
        for (uint64_t q = 0; q < head->machine.procs; q++)
            next.base[q] = segment_of(closed)->base[q] + load(last_word(closed, q));
    }
    int error = log_segment_path(path, folder, number);
    if (!error)
        error = rme_create_with(path, head->machine.procs, h->cap, h->width, &next, sizeof next, 0600, (gid_t)-1);
    if (number < load(&h->first)) {
        unlink(path);
        return ENODATA;
    }
    return error == EEXIST ? 0 : error;
}

bool log_follows(const struct rme_seat *closed, const struct rme_seat *next)
{
    const struct log_segment *before = segment_of(closed), *after = segment_of(next);
    bool same = after->before == before->before + load(count_word(closed));
    for (uint64_t q = 0; q < closed->machine.procs; q++)
        same = same && after->base[q] == before->base[q] + load(last_word(closed, q));
    return same;
}

/* The last segment that is known to be made; if none is, the first that is not dropped. */
uint64_t log_last_made(const struct rme_seat *head)
{
    const uint64_t last = load(&head_of(head)->last), first = load(&head_of(head)->first);
    return last > first ? last : first;
}

void log_raise(uint64_t *word, uint64_t to)
{
    uint64_t was = load(word);
    while (was < to && !__atomic_compare_exchange_n(word, &was, to, false, __ATOMIC_SEQ_CST, __ATOMIC_SEQ_CST))
        ;
}

static void wake_on(uint64_t *word)
{
    syscall(SYS_futex, (uint32_t *)word + (__BYTE_ORDER__ == __ORDER_BIG_ENDIAN__), FUTEX_WAKE, INT_MAX, NULL, NULL, 0);
}

/* After an append and a close. A sleeper is counted before it reads the word for the last time. */
void log_wake(const struct rme_seat *segment)
{
    if (!load(&segment_of(segment)->waiters))
        return;
    wake_on(count_word(segment));
    if (load(closed_word(segment)))
        wake_on(closed_word(segment));
}
