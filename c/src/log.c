/* Senders: making a log, and appending to it over the seams of its segments. */
#include "log.h"

#include <string.h>
#include <sys/random.h>
#include <sys/stat.h>

int rme_log_create(const char *folder, uint64_t procs, uint64_t cap, uint64_t width)
{
    WITHOUT_CANCELLATION;
    struct log_head head = {.data = {LOG_MAGIC + LOG_HEAD, LOG_FORMAT, 0, 0}, .cap = cap, .width = width, .first = 1};
    char whole[RME_LOG_PATH], path[RME_LOG_PATH];
    if (!folder || rme_words(procs, cap, width) == 0)
        return EINVAL;
    if (getrandom(&head.data.identity, sizeof head.data.identity, 0) != sizeof head.data.identity)
        return EAGAIN;
    if (mkdir(folder, 0700) && errno != EEXIST)
        return errno;
    int error = log_folder(whole, folder);
    if (!error)
        error = log_path(path, whole, "log");
    return error ? error : rme_create_with(path, procs, 1, 1, &head, sizeof head, 0600, (gid_t)-1);
}

static struct rme_seat *segment(struct rme_log *log) { return &log->segments[log->at]; }

/* Attaches the sender to this segment, and detaches it from the one before. */
static int enter(struct rme_log *log, uint64_t number)
{
    struct rme_seat *had = segment(log), *next = &log->segments[1 - log->at];
    int error = log_open_segment(next, &log->seat, log->folder, number, log->seat.machine.index);
    if (error)
        return error;
    if (had->header && number == log->number + 1 && !log_follows(had, next)) {
        rme_detach(next);
        return EPROTO;
    }
    log_raise(&head_of(&log->seat)->last, number); /* before anything is appended there */
    if (had->header)
        rme_detach(had);
    log->at = 1 - log->at;
    log->number = number;
    return 0;
}

/* The same, and makes the segment if it is not made. If it is dropped, enters one that is not. */
static int enter_or_make(struct rme_log *log, uint64_t number, const struct rme_seat *closed)
{
    int error = enter(log, number);
    if (error == ENOENT && (closed || number == 1)) {
        error = log_make_segment(&log->seat, log->folder, number, closed);
        if (!error)
            error = enter(log, number);
    }
    while (error == ENODATA)
        error = enter(log, log_last_made(&log->seat));
    return error;
}

static void leave(struct rme_log *log)
{
    for (int i = 0; i < 2; i++)
        if (log->segments[i].header)
            rme_detach(&log->segments[i]);
}

int rme_log_open(struct rme_log *log, const char *folder, uint64_t index, uint64_t milliseconds)
{
    WITHOUT_CANCELLATION;
    char path[RME_LOG_PATH];
    if (!log || !folder)
        return EINVAL;
    memset(log, 0, sizeof *log);
    int error = log_folder(log->folder, folder);
    if (!error)
        error = log_path(path, log->folder, "log");
    if (!error)
        error = rme_attach_within(&log->seat, path, index, milliseconds);
    if (error)
        return error;
    error = log_check(&log->seat, LOG_HEAD, NULL);
    if (!error)
        error = enter_or_make(log, log_last_made(&log->seat), NULL);
    if (error)
        rme_detach(&log->seat);
    return error;
}

/* ---- inside ---- */

static int come_in(struct rme_seat *seat)
{
    enum { TURNS = 100 };
    int error = rme_lock_reaping(seat, TURNS, NULL, NULL);
    if (error != EOWNERDEAD)
        return error;
    error = rme_consistent(seat);
    if (error)
        rme_unlock(seat);
    return error;
}

/* Appends in this segment. It is tried before the segment is closed, and also where it is closed: the message may be there.
 * Errors: EPIPE it is closed, and has no such message. */
static int append_here(struct rme_seat *seat, uint64_t number, const uint64_t *value)
{
    const uint64_t base = segment_of(seat)->base[seat->machine.index];
    if (number <= base)
        return number ? EALREADY : EINVAL;
    int error = come_in(seat);
    if (error)
        return error;
    error = rme_append(seat, number - base, value);
    if (error == ENOSPC) {
        rme_close(seat);
        error = EPIPE;
    } else if (error == EINVAL && load(closed_word(seat))) {
        error = EPIPE; /* a later number belongs to a later segment */
    }
    log_wake(seat);
    int left = rme_unlock(seat);
    return error ? error : left;
}

int rme_log_append(struct rme_log *log, uint64_t number, const uint64_t *value)
{
    WITHOUT_CANCELLATION;
    if (!log || !value)
        return EINVAL;
    int error = rme_begin_call(&log->seat);
    if (error)
        return error;
    while ((error = append_here(segment(log), number, value)) == EPIPE) {
        error = enter_or_make(log, log->number + 1, segment(log));
        if (error)
            break;
    }
    return rme_end_call(&log->seat, error);
}

/* Finishes first what an earlier process of this index has left half done. */
static int next_here(struct rme_seat *seat, uint64_t *number, bool *closed)
{
    int error = come_in(seat);
    if (error)
        return error;
    *number = segment_of(seat)->base[seat->machine.index] + load(last_word(seat, seat->machine.index)) + 1;
    *closed = load(closed_word(seat));
    log_wake(seat);
    return rme_unlock(seat);
}

int rme_log_next(struct rme_log *log, uint64_t *number)
{
    WITHOUT_CANCELLATION;
    bool closed = false;
    if (!log || !number)
        return EINVAL;
    int error = rme_begin_call(&log->seat);
    if (error)
        return error;
    while (!(error = next_here(segment(log), number, &closed)) && closed) {
        error = enter_or_make(log, log->number + 1, segment(log));
        if (error)
            break;
    }
    return rme_end_call(&log->seat, error);
}

int rme_log_close(struct rme_log *log)
{
    WITHOUT_CANCELLATION;
    if (!log || !log->seat.header)
        return EINVAL;
    int error = log->seat.state ? rme_begin_call(&log->seat) : 0;
    if (error == EBUSY)
        return error;
    leave(log);
    if (!error)
        rme_end_call(&log->seat, 0);
    return rme_detach(&log->seat);
}

size_t rme_log_size(void) { return sizeof(struct rme_log); }
size_t rme_log_reader_size(void) { return sizeof(struct rme_log_reader); }
