/* The files of a log: their names, and the check that each is what its name says. Each is a file of the library, with the log's data
 * in the place of the caller's. */
#include "log.h"

#include <inttypes.h>
#include <limits.h>
#include <stdio.h>
#include <stdlib.h>
#include <string.h>
#include <sys/file.h>

_Static_assert(sizeof(struct log_segment) == 2 * 64 + 8 * MOST_PROCS, "the head and the waiters have a cache line each");

/* The absolute path, so that the working folder may change. */
int log_folder(char folder[RME_LOG_PATH], const char *name)
{
    char *whole = realpath(name, NULL);
    if (!whole)
        return errno;
    const bool fits = strlen(whole) + RME_LOG_NAME + 16 < RME_LOG_PATH;
    if (fits)
        memcpy(folder, whole, strlen(whole) + 1);
    free(whole);
    return fits ? 0 : ENAMETOOLONG;
}

int log_path(char path[RME_LOG_PATH], const char *folder, const char *name)
{
    return snprintf(path, RME_LOG_PATH, "%s/%s", folder, name) < RME_LOG_PATH ? 0 : ENAMETOOLONG;
}

int log_segment_path(char path[RME_LOG_PATH], const char *folder, uint64_t number)
{
    return snprintf(path, RME_LOG_PATH, "%s/%08" PRIu64, folder, number) < RME_LOG_PATH ? 0 : ENAMETOOLONG;
}

int log_reader_path(char path[RME_LOG_PATH], const char *folder, const char *name)
{
    static const char letters[] = "abcdefghijklmnopqrstuvwxyzABCDEFGHIJKLMNOPQRSTUVWXYZ0123456789_-";
    const size_t length = strlen(name);
    if (length == 0 || length >= RME_LOG_NAME || strspn(name, letters) != length)
        return EINVAL;
    return snprintf(path, RME_LOG_PATH, "%s/reader-%s", folder, name) < RME_LOG_PATH ? 0 : ENAMETOOLONG;
}

/* Takes the index; or, with LOG_ANY, opens the file for reading, and for counting a sleeping reader if permitted. */
int log_open(struct rme_seat *seat, const char *path, uint64_t index, uint64_t milliseconds)
{
    if (index != LOG_ANY)
        return rme_attach_within(seat, path, index, milliseconds);
    int error = rme_open_seat(seat, path, O_RDWR);
    return error == EACCES || error == EROFS || error == EPERM ? rme_open_seat(seat, path, O_RDONLY) : error;
}

void log_close(struct rme_seat *seat, uint64_t index)
{
    if (index == LOG_ANY)
        rme_close_seat(seat);
    else
        rme_detach(seat);
}

static const size_t bytes_of[] = {
    [LOG_HEAD] = sizeof(struct log_head), [LOG_SEGMENT] = sizeof(struct log_segment), [LOG_READER] = sizeof(struct log_reader),
};

/* `head`: the head of the log that the file has to belong to; null for a head itself. */
int log_check(const struct rme_seat *seat, enum log_kind kind, const struct log_head *head)
{
    size_t bytes = 0;
    const struct log_data *data = rme_data(seat, &bytes);
    if (bytes != bytes_of[kind] || data->magic != LOG_MAGIC + kind)
        return EBADMSG;
    return data->format != LOG_FORMAT || (head && data->identity != head->data.identity) ? EPROTO : 0;
}

/* Opens the file `log` of the folder with this name, without an index. */
int log_open_head(struct rme_seat *seat, char folder[RME_LOG_PATH], const char *name)
{
    char path[RME_LOG_PATH];
    int error = log_folder(folder, name);
    if (!error)
        error = log_path(path, folder, "log");
    if (!error)
        error = log_open(seat, path, LOG_ANY, 0);
    if (error)
        return error;
    error = log_check(seat, LOG_HEAD, NULL);
    if (error)
        log_close(seat, LOG_ANY);
    return error;
}

/* Named readers that open lock the folder shared; a dropper locks it exclusively. The lock ends with the process. */
int log_hold(const char *folder, int how)
{
    const int held = open(folder, O_RDONLY | O_DIRECTORY | O_CLOEXEC);
    if (held < 0 || flock(held, how) == 0)
        return held;
    const int error = errno;
    close(held);
    errno = error;
    return -1;
}
