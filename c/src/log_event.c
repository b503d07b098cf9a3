/* An eventfd for a reader: a thread waits at the end of the log, and writes when messages have come. */
#include "log.h"

#include <signal.h>
#include <stdlib.h>
#include <string.h>
#include <sys/eventfd.h>

/* `owner`: the process that has the thread; a child of fork has none. */
struct watcher {
    struct rme_log_reader reader;
    pthread_t thread;
    pid_t owner;
    int file, ends;
};

static void *watch(void *argument)
{
    enum { LONGEST = 100 };
    struct watcher *w = argument;
    while (!__atomic_load_n(&w->ends, __ATOMIC_ACQUIRE)) {
        int error = rme_log_wait(&w->reader, LONGEST);
        if (error == ETIMEDOUT)
            continue;
        if (error)
            nanosleep(&(struct timespec){0, LONGEST * 1000000}, NULL); /* the reader's own next call answers it */
        rme_log_seek_end(&w->reader);
        eventfd_write(w->file, 1);
    }
    return NULL;
}

/* The thread takes none of the caller's signals. */
static int begin_thread(struct watcher *w)
{
    sigset_t all, before;
    sigfillset(&all);
    pthread_sigmask(SIG_SETMASK, &all, &before);
    int error = pthread_create(&w->thread, NULL, watch, w);
    pthread_sigmask(SIG_SETMASK, &before, NULL);
    return error;
}

static int begin_watcher(struct watcher *w, const struct rme_log_reader *r)
{
    int error = rme_log_reader_open(&w->reader, r->folder, NULL);
    if (error)
        return error;
    w->reader.cursor = r->cursor;
    w->file = eventfd(0, EFD_CLOEXEC | EFD_NONBLOCK);
    error = w->file < 0 ? errno : begin_thread(w);
    if (error && w->file >= 0)
        close(w->file);
    if (error)
        rme_log_reader_close(&w->reader);
    return error;
}

int rme_log_event(struct rme_log_reader *r, int *file)
{
    WITHOUT_CANCELLATION;
    if (!r || !r->head.header || !file)
        return EINVAL;
    if (r->watcher)
        return EALREADY;
    struct watcher *w = calloc(1, sizeof *w);
    if (!w)
        return ENOMEM;
    w->owner = getpid();
    int error = begin_watcher(w, r);
    if (error) {
        free(w);
        return error;
    }
    r->watcher = w;
    *file = w->file;
    return 0;
}

void log_end_watcher(struct rme_log_reader *r)
{
    struct watcher *w = r->watcher;
    r->watcher = NULL;
    if (!w)
        return;
    __atomic_store_n(&w->ends, 1, __ATOMIC_RELEASE);
    if (w->owner == getpid())
        pthread_join(w->thread, NULL);
    rme_log_reader_close(&w->reader);
    close(w->file);
    free(w);
}
