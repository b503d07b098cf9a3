/* What the files of the log share; no part of the library's interface. */
#ifndef RME_LOG_FILES_H
#define RME_LOG_FILES_H

#include "shim.h"

#include "rme_log.h"

#define LOG_MAGIC UINT64_C(0x31676f6c656d72)
#define LOG_FORMAT UINT64_C(1)
enum log_kind { LOG_HEAD = 0, LOG_SEGMENT, LOG_READER }; /* added to the magic number */
enum { LOG_SEGMENTS = 99999999, LOG_CAP = 65536, LOG_PLACES = 1 << 20 /* above LOG_CAP */, LOG_ANY = MOST_PROCS /* no index: it reads */ };

/* The caller's own data in the log's files. They are written before the file gets its name, except `first` and `last`, which only rise,
 * `waiters` and `cursor`. */
struct log_data {
    uint64_t magic, format, identity, spare;
};
struct log_head {
    struct log_data data;
    uint64_t cap, width, first, last;
};
struct log_segment {
    struct log_data data;
    uint64_t number, before, spare[2]; /* before: the number of messages in all segments before */
    uint64_t waiters, spare_line[7];   /* the number of sleeping readers; one that is killed asleep stays counted */
    uint64_t base[MOST_PROCS];
};
struct log_reader {
    struct log_data data;
    uint64_t cursor, spare[3]; /* segment * LOG_PLACES + place */
};

#pragma GCC visibility push(hidden)

/* log_files.c: the folder's whole name; the name of a file there; the data of an open file, or an error where it is none of this kind. */
int log_folder(char folder[RME_LOG_PATH], const char *name);
int log_path(char path[RME_LOG_PATH], const char *folder, const char *name);
int log_segment_path(char path[RME_LOG_PATH], const char *folder, uint64_t number);
int log_reader_path(char path[RME_LOG_PATH], const char *folder, const char *name);
int log_open(struct rme_seat *seat, const char *path, uint64_t index, uint64_t milliseconds);
void log_close(struct rme_seat *seat, uint64_t index); /* what log_open has opened */
int log_check(const struct rme_seat *seat, enum log_kind kind, const struct log_head *head);
int log_open_head(struct rme_seat *seat, char folder[RME_LOG_PATH], const char *name);
int log_hold(const char *folder, int how); /* flock of the folder; answers a descriptor, or -1 */

static inline struct log_head *head_of(const struct rme_seat *seat) { return rme_data(seat, NULL); }
static inline struct log_segment *segment_of(const struct rme_seat *seat) { return rme_data(seat, NULL); }
static inline struct log_reader *reader_of(const struct rme_seat *seat) { return rme_data(seat, NULL); }

/* log_segments.c: segments, as a sender or a reader has them open. */
int log_open_segment(struct rme_seat *seat, const struct rme_seat *head, const char *folder, uint64_t number, uint64_t index);
int log_make_segment(const struct rme_seat *head, const char *folder, uint64_t number, const struct rme_seat *closed);
bool log_follows(const struct rme_seat *closed, const struct rme_seat *next);
uint64_t log_last_made(const struct rme_seat *head);
void log_raise(uint64_t *word, uint64_t to);
void log_wake(const struct rme_seat *segment);

static inline uint64_t *closed_word(const struct rme_seat *segment) { return segment->words + 1; }
static inline uint64_t *count_word(const struct rme_seat *segment) { return segment->words + 2; }
static inline uint64_t *last_word(const struct rme_seat *segment, uint64_t sender)
{
    return segment->words + 10 + segment->machine.width + sender;
}

/* log_event.c: ends the thread of a reader. */
void log_end_watcher(struct rme_log_reader *reader);

#pragma GCC visibility pop
#endif
