/* Dropping segments; and the state of a log. */
#include "log.h"

#include <dirent.h>
#include <inttypes.h>
#include <stdio.h>
#include <stdlib.h>
#include <string.h>
#include <sys/file.h>

static const char reader_prefix[] = "reader-";

/* ---- named readers ---- */

/* A name with a dot is a temporary one, in a file system that has no files without a name; its maker may have died. */
static int is_readers(const struct dirent *entry)
{
    return strncmp(entry->d_name, reader_prefix, sizeof reader_prefix - 1) == 0 && !strchr(entry->d_name, '.');
}

/* Opens the file of the reader with this name, at index 0 or with LOG_ANY. */
static int open_reader(struct rme_seat *seat, const struct rme_seat *head, const char *folder, const char *name, uint64_t index)
{
    char path[RME_LOG_PATH];
    int error = log_reader_path(path, folder, name);
    if (error)
        return error == EINVAL ? EBADMSG : error; /* the name of a file of the log, but not of a reader */
    error = log_open(seat, path, index, 0);
    if (error)
        return error;
    error = log_check(seat, LOG_READER, head_of(head));
    if (error)
        log_close(seat, index);
    return error;
}

/* The number of messages before this segment. */
static int before_segment(const struct rme_seat *head, const char *folder, uint64_t number, uint64_t *before)
{
    struct rme_seat seat;
    int error = log_open_segment(&seat, head, folder, number, LOG_ANY);
    if (error)
        return error;
    *before = segment_of(&seat)->before;
    log_close(&seat, LOG_ANY);
    return 0;
}

static int reader_state(const struct rme_seat *head, const char *folder, const char *name, struct rme_log_reader_state *state)
{
    struct rme_seat seat;
    int life = RME_ABSENT;
    int error = open_reader(&seat, head, folder, name, LOG_ANY);
    if (error)
        return error;
    const uint64_t cursor = load(&reader_of(&seat)->cursor);
    error = rme_life_of(&seat, 0, &life);
    log_close(&seat, LOG_ANY);
    *state = (struct rme_log_reader_state){.cursor = {cursor / LOG_PLACES, cursor % LOG_PLACES}, .alive = life == RME_ALIVE};
    snprintf(state->name, sizeof state->name, "%s", name);
    return error;
}

/* Adds how many of these messages the reader has not passed. */
static int count_unread(const struct rme_seat *head, const char *folder, uint64_t messages, struct rme_log_reader_state *state)
{
    uint64_t before = 0;
    int error = before_segment(head, folder, state->cursor.segment, &before);
    state->overtaken = error == ENODATA;
    state->unread = before + state->cursor.place < messages ? messages - before - state->cursor.place : 0;
    return error == ENODATA || error == ENOENT ? 0 : error;
}

/* Visits each name of a reader in the folder, until a visit answers a number other than 0. */
static int each_reader(const char *folder, int (*visit)(const char *name, void *context), void *context)
{
    struct dirent **entry = NULL;
    const int count = scandir(folder, &entry, is_readers, alphasort);
    int answer = count < 0 ? errno : 0;
    for (int i = 0; i < count; i++) {
        if (!answer)
            answer = visit(entry[i]->d_name + sizeof reader_prefix - 1, context);
        free(entry[i]);
    }
    free(entry);
    return answer;
}

/* ---- dropping ---- */

struct dropping {
    const struct rme_seat *head;
    const char *folder;
    uint64_t before; /* this segment stays */
};

static int keep_for(const char *name, void *context)
{
    struct dropping *d = context;
    struct rme_log_reader_state state;
    int error = reader_state(d->head, d->folder, name, &state);
    if (!error && state.cursor.segment < d->before)
        d->before = state.cursor.segment;
    return error;
}

/* The number in a segment's name; or in the temporary name of one, in a file system that has no files without a name. */
static uint64_t number_of(const char *name, bool *unfinished)
{
    const size_t digits = strspn(name, "0123456789");
    *unfinished = name[digits] == '.' && strlen(name + digits + 1) == 6;
    return digits == 8 && (name[digits] == 0 || *unfinished) ? strtoull(name, NULL, 10) : 0;
}

/* Removes a dropped segment, or what a maker that died has left of it; nothing else with such a name. */
static int drop_name(const struct dropping *d, const char *name)
{
    char path[RME_LOG_PATH];
    struct rme_seat seat;
    bool unfinished;
    const uint64_t number = number_of(name, &unfinished);
    if (number == 0 || number >= d->before)
        return 0;
    int error = log_path(path, d->folder, name);
    if (!error && !unfinished) {
        error = rme_inspect(&seat, path);
        if (error)
            return error == ENOENT ? 0 : error;
        error = log_check(&seat, LOG_SEGMENT, head_of(d->head));
        rme_detach(&seat);
    }
    return error ? error : unlink(path) && errno != ENOENT ? errno : 0;
}

/* Removes all segments before the first, also those that a dropper that died has left. */
static int drop_names(const struct dropping *d)
{
    struct dirent **entry = NULL;
    const int count = scandir(d->folder, &entry, NULL, alphasort);
    int first = count < 0 ? errno : 0;
    for (int i = 0; i < count; i++) {
        int error = drop_name(d, entry[i]->d_name);
        first = first ? first : error;
        free(entry[i]);
    }
    free(entry);
    return first;
}

/* Called with the folder locked. All segments before the last are closed, and have a successor. */
static int drop_held(const struct rme_seat *head, const char *folder, uint64_t before)
{
    struct log_head *h = head_of(head);
    const uint64_t last = log_last_made(head);
    struct dropping d = {head, folder, before < last ? before : last};
    int error = each_reader(folder, keep_for, &d);
    if (error)
        return error;
    log_raise(&h->first, d.before);
    d.before = load(&h->first);
    return drop_names(&d);
}

int rme_log_drop(const char *folder, uint64_t before, uint64_t *first)
{
    WITHOUT_CANCELLATION;
    struct rme_seat head;
    char whole[RME_LOG_PATH];
    if (!folder)
        return EINVAL;
    int error = log_open_head(&head, whole, folder);
    if (error)
        return error;
    const int held = (fcntl(head.file, F_GETFL) & O_ACCMODE) == O_RDWR ? log_hold(whole, LOCK_EX) : (errno = EACCES, -1);
    error = held < 0 ? errno : drop_held(&head, whole, before);
    if (first)
        *first = load(&head_of(&head)->first);
    if (held >= 0)
        close(held);
    log_close(&head, LOG_ANY);
    return error;
}

/* Called with the folder locked. It takes the reader's index first, so the reader is not in use. */
static int forget_held(const struct rme_seat *head, const char *folder, const char *name)
{
    char path[RME_LOG_PATH];
    struct rme_seat seat;
    int error = log_reader_path(path, folder, name);
    if (!error)
        error = open_reader(&seat, head, folder, name, 0);
    if (error)
        return error;
    error = unlink(path) ? errno : 0;
    rme_detach(&seat);
    return error;
}

int rme_log_forget(const char *folder, const char *name)
{
    WITHOUT_CANCELLATION;
    struct rme_seat head;
    char whole[RME_LOG_PATH];
    if (!folder || !name)
        return EINVAL;
    int error = log_open_head(&head, whole, folder);
    if (error)
        return error;
    const int held = log_hold(whole, LOCK_EX);
    error = held < 0 ? errno : forget_held(&head, whole, name);
    if (held >= 0)
        close(held);
    log_close(&head, LOG_ANY);
    return error;
}

/* ---- the state of a log ---- */

/* Opens the last segment that is made, beginning at one that is known to be made. */
static int open_last(struct rme_seat *seat, const struct rme_seat *head, const char *folder, uint64_t *number)
{
    struct rme_seat next;
    int error;
    do
        error = log_open_segment(seat, head, folder, *number = log_last_made(head), LOG_ANY);
    while (error == ENODATA);
    while (!error && load(closed_word(seat)) && log_open_segment(&next, head, folder, *number + 1, LOG_ANY) == 0) {
        log_close(&next, LOG_ANY);
        log_close(seat, LOG_ANY);
        error = log_open_segment(seat, head, folder, *number += 1, LOG_ANY);
    }
    return error;
}

static int state_of(const struct rme_seat *head, const char *folder, struct rme_log_state *state)
{
    const struct log_head *h = head_of(head);
    struct rme_seat last;
    *state = (struct rme_log_state){.procs = head->machine.procs, .cap = h->cap, .width = h->width, .first = load(&h->first)};
    int error = open_last(&last, head, folder, &state->last);
    if (error) {
        state->last = error == ENOENT ? 0 : state->last; /* none is made yet */
        return error == ENOENT ? 0 : error;
    }
    state->messages = segment_of(&last)->before + load(count_word(&last));
    for (uint64_t q = 0; q < state->procs; q++)
        state->numbers[q] = segment_of(&last)->base[q] + load(last_word(&last, q));
    log_close(&last, LOG_ANY);
    return before_segment(head, folder, state->first, &state->dropped);
}

int rme_log_status(const char *folder, struct rme_log_state *state)
{
    WITHOUT_CANCELLATION;
    struct rme_seat head;
    char whole[RME_LOG_PATH];
    if (!folder || !state)
        return EINVAL;
    int error = log_open_head(&head, whole, folder);
    if (error)
        return error;
    error = state_of(&head, whole, state);
    log_close(&head, LOG_ANY);
    return error;
}

struct visiting {
    const struct rme_seat *head;
    const char *folder;
    uint64_t messages;
    int (*visit)(const struct rme_log_reader_state *state, void *context);
    void *context;
};

static int visit_reader(const char *name, void *context)
{
    struct visiting *v = context;
    struct rme_log_reader_state state;
    int error = reader_state(v->head, v->folder, name, &state);
    if (!error)
        error = count_unread(v->head, v->folder, v->messages, &state);
    if (error == ENOENT) /* it was forgotten meanwhile */
        return 0;
    return error ? error : v->visit(&state, v->context);
}

int rme_log_readers(const char *folder, int (*visit)(const struct rme_log_reader_state *state, void *context), void *context)
{
    WITHOUT_CANCELLATION;
    struct rme_seat head;
    struct rme_log_state state;
    char whole[RME_LOG_PATH];
    if (!folder || !visit)
        return EINVAL;
    int error = log_open_head(&head, whole, folder);
    if (error)
        return error;
    error = state_of(&head, whole, &state);
    struct visiting v = {&head, whole, state.messages, visit, context};
    if (!error)
        error = each_reader(whole, visit_reader, &v);
    log_close(&head, LOG_ANY);
    return error;
}

const char *rme_log_strerror(int error)
{
    switch (error) {
    case EBUSY: return "a living process has the index or the name, or another call the log";
    case EALREADY: return "it is stored already";
    case EBADMSG: return "under a name of the log's is no file of a log";
    case EPROTO: return "under a name of the log's is a file of other sizes, of another log or of another place";
    case ENOLINK: return "a segment is missing";
    case ENODATA: return "the reader was overtaken: its messages are dropped";
    case ENOSPC: return "the disk is full";
    case EOVERFLOW: return "no segment is left";
    case ETIMEDOUT: return "nothing yet";
    default: return rme_strerror(error);
    }
}
