/* A log of messages that does not fill, built of files of the library: senders that may die at any instant, readers that keep cursors. It
 * needs rme.h, and is tested as the shim is, not proved. docs/use/c.md has an example.
 *
 * A log is a folder. Its file `log` has the sizes, the number of the first segment that is not dropped, and that of the last; a
 * sender has its index there for as long as it lives. The segments `00000001`, `00000002` .. hold the messages. An append that finds
 * its segment full closes it, and goes on in the next. Nothing is appended after closing, so the words of a closed segment do not
 * change any more. Whoever finds one without a successor makes it: a complete file without a name, which is then linked to its name. It
 * begins with the base numbers: for each sender the last number in all segments before. They follow from the closed segment
 * alone, so two makers make the same file. In a segment a sender's numbers begin at 1: its number in the log is the base number plus that.
 * A named reader has a file `reader-NAME` with its cursor. Each of these is a file of the library, made in one step. Other names in the
 * folder are ignored.
 *
 * A log survives its processes, not a crash of the machine: nothing is forced to the disk. It needs no supervisor: whoever waits for a
 * dead sender releases its place. */
#ifndef RME_LOG_H
#define RME_LOG_H

#include "rme.h"

#ifdef __cplusplus
extern "C" {
#endif

enum { RME_LOG_PATH = 4096, RME_LOG_NAME = 64 }; /* bytes of a path of a log's file, and of a reader's name, with the 0 at the end */

/* Where a reader stands: the message at `place` (the first is 0) of `segment` (the first is 1) comes next. */
struct rme_cursor {
    uint64_t segment, place;
};

/* One living sender. A program allocates it, as a seat. */
struct rme_log {
    struct rme_seat seat, segments[2]; /* in the file `log`; where it appends: segments[at], and the other is not attached */
    uint64_t number, at;               /* number: of this segment */
    char folder[RME_LOG_PATH];
};

/* One reader. `cursor` is where it stands; the other fields are the library's own. */
struct rme_log_reader {
    struct rme_cursor cursor;
    struct rme_seat head, segments[2], own;
    uint64_t number, at;
    void *watcher;
    char folder[RME_LOG_PATH];
};

/* Each call answers 0 or one of its errors, unless it says `Answers`. Each call with a log or a reader, and rme_log_drop,
 * rme_log_forget and rme_log_status, have these errors too:
 *     EINVAL  a required pointer is null; the log or reader is not open; in a child of fork: with a log, and for rme_log_keep
 *     EBUSY   a call with this log is under way in another thread, or in the one that this signal handler has interrupted
 *     ENOENT  no such folder, or no log in it
 *     EBADMSG a name of the log belongs to a file that is not this library's, or not a log's
 *     EPROTO  a name of the log belongs to a file of other sizes, of another log or of another place in this one
 *     ENOLINK a segment is missing: it was there, and is not dropped
 *     ENOSPC  the disk is full
 *     and those of open, fcntl, mmap, posix_fallocate, write, linkat and flock
 * After an error nothing that was stored is lost, and the same call may be repeated. A log or reader is used by one thread at a
 * time. No call here is a point of cancellation. */

/* Makes the folder, where there is none, and a log in it: for procs senders (1 to 64), and messages of width words (1 to 8), cap of them
 * (1 to 65,536) in each segment. A call that was killed may be repeated.
 * Errors:
 *     EEXIST       there is a log already; nothing is changed
 *     EINVAL       sizes out of range
 *     ENAMETOOLONG the name is too long
 *     and those of mkdir and of rme_create */
int rme_log_create(const char *folder, uint64_t procs, uint64_t cap, uint64_t width);

/* Takes the index of a sender, until rme_log_close or the end of the process. It waits at most `milliseconds` for a process that acts for
 * an earlier one of this index.
 * Errors:
 *     EBUSY        a living process has this index
 *     ETIMEDOUT    another process still acts for an earlier one of this index
 *     EINVAL       no such index
 *     ENAMETOOLONG the name is too long */
int rme_log_open(struct rme_log *log, const char *folder, uint64_t index, uint64_t milliseconds);

/* Stores a message, of width words at value, as this sender's next. The numbers of a sender go 1, 2, 3 .. through all segments. It waits
 * for its turn, and releases the places of the dead who block it. A call that was killed may be repeated with the same number: the
 * message is stored once.
 * Errors:
 *     EALREADY        the message with this number is there already, or was and is dropped
 *     EINVAL          not the next number
 *     EOVERFLOW       there are 99,999,999 segments
 *     ENOTRECOVERABLE the lock of a segment is ruined, which no call here does */
int rme_log_append(struct rme_log *log, uint64_t number, const uint64_t *value);

/* Finds the number of this sender's next message: *number gets one more than that of the last that is stored.
 * Errors: the others of rme_log_append */
int rme_log_next(struct rme_log *log, uint64_t *number);

/* Gives the index back. In a child of fork it closes the child's share of the files, and answers EINVAL. */
int rme_log_close(struct rme_log *log);

/* Opens a log for reading. Without a name (null) the reader stands at the first message that is not dropped. With one, of letters, digits,
 * `_` and `-`, it stands where the reader with this name was at its last rme_log_keep; if there was none, at the first message. From now
 * on nothing that it has not passed is dropped. To read without a name, read permission is enough.
 * Errors:
 *     EBUSY        a living process reads under this name
 *     EINVAL       a reader can't have this name
 *     ENAMETOOLONG the name is too long */
int rme_log_reader_open(struct rme_log_reader *reader, const char *folder, const char *name);

/* Copies the messages from the cursor on, at most room of them, and moves the cursor past them; *count gets how many: 0 where there are
 * none yet. All readers see the same messages in the same order; `number` is the sender's number in the log. It needs no lock.
 * Errors:
 *     ENODATA the reader was overtaken: messages from its cursor on are dropped. rme_log_seek moves it on
 *     EINVAL  there is no such place in the segment */
int rme_log_read(struct rme_log_reader *reader, struct rme_message *messages, uint64_t room, uint64_t *count);

/* Moves the reader to a cursor that it had before; segment 0 is the first message that is not dropped.
 * Errors:
 *     EINVAL no log has such a place */
int rme_log_seek(struct rme_log_reader *reader, struct rme_cursor cursor);

/* Moves the reader past all messages that there are.
 * Errors: those of rme_log_read */
int rme_log_seek_end(struct rme_log_reader *reader);

/* Keeps the cursor of a named reader, in one store: what it has read so far has been processed. A reader that is killed before that begins
 * at the cursor that was kept last, so it meets the messages since then once more.
 * Errors:
 *     EINVAL the reader has no name */
int rme_log_keep(struct rme_log_reader *reader);

/* Sleeps until there is a message to read, at most `milliseconds`.
 * Errors:
 *     ETIMEDOUT there is none yet
 *     EINTR     a signal handler has run
 *     and those of rme_log_read */
int rme_log_wait(struct rme_log_reader *reader, uint64_t milliseconds);

/* Makes an eventfd for poll, select and epoll: *file is readable when messages have come since it was read last, or were there at first.
 * Read it, then rme_log_read until there are none. A thread of the library waits for messages; rme_log_reader_close ends both.
 * Errors:
 *     EALREADY the reader has one
 *     and those of eventfd and pthread_create */
int rme_log_event(struct rme_log_reader *reader, int *file);

/* Closes the reader. A cursor that was not kept is lost. */
int rme_log_reader_close(struct rme_log_reader *reader);

/* Removes the segments before this one, but for those that a named reader has not passed, and the last one. *first (may be null) gets
 * the number of the first segment that is left. A call that was killed may be repeated.
 * Errors: those of opendir and unlink */
int rme_log_drop(const char *folder, uint64_t before, uint64_t *first);

/* Removes a named reader, so that it no longer keeps segments from being dropped.
 * Errors:
 *     EBUSY  a living process reads under this name
 *     ENOENT no such reader */
int rme_log_forget(const char *folder, const char *name);

/* The state of a log, each number read by itself: the first segment and the last; how many messages were ever stored, and how many of them
 * were in segments that are dropped; for each sender the number of its last message. */
struct rme_log_state {
    uint64_t procs, cap, width, first, last, messages, dropped;
    uint64_t numbers[64];
};

/* Reads the state of a log. Read permission is enough. */
int rme_log_status(const char *folder, struct rme_log_state *state);

/* A named reader: its cursor; how many messages it has not passed; whether a living process reads under its name; whether it was overtaken,
 * which happens only where another program changes the folder. */
struct rme_log_reader_state {
    char name[RME_LOG_NAME];
    struct rme_cursor cursor;
    uint64_t unread;
    bool alive, overtaken;
};

/* Visits each named reader of the log, in the order of their names. It stops where `visit` answers a number other than 0, and answers it.
 * Errors: those of opendir */
int rme_log_readers(const char *folder, int (*visit)(const struct rme_log_reader_state *state, void *context), void *context);

/* Answers what an error of these calls says, in words of the log; else what rme_strerror says. */
const char *rme_log_strerror(int error);

/* Answers sizeof (struct rme_log), for callers that do not read this file. */
size_t rme_log_size(void);

/* Answers sizeof (struct rme_log_reader), for callers that do not read this file. */
size_t rme_log_reader_size(void);

#ifdef __cplusplus
}
#endif
#endif
