/* A log's folder as the tests see it, by its bytes alone: no call of the library reads it here. */
#ifndef LOG_FOLDER_H
#define LOG_FOLDER_H

#include "expect.h"
#include "rme_log.h"

enum { MOST_FILES = 12, MOST_NAME = 32 };

/* A file of the folder: its name, and its words, mapped. */
struct log_file {
    char name[MOST_NAME];
    uint64_t *words, bytes, inode;
};
struct log_files {
    struct log_file file[MOST_FILES];
    uint64_t count;
};

/* The same as numbers: of each file its name and length, and of its words the place and value of those that are not 0. */
struct snapshot {
    uint64_t *numbers, length, hash;
};

extern const char *log_folder_name;

/* Reads the names in the folder, and maps what is new. True: a name has come or gone, or is of another file. */
bool folder_look(struct log_files *files);
/* False: no name has come or gone since this was asked last. */
bool folder_may_differ(void);
void folder_clear(struct log_files *files);
/* With `apart` it is only that by which states are distinguished: the identity of the log, which is drawn, and what a reaper has found, which
 * no call of the log asks for, are left out. */
struct snapshot folder_snapshot(const struct log_files *files, bool apart);
void folder_restore(struct log_files *files, const struct snapshot *snapshot);
/* Whether a word of a file counts or shows something, and the lock does not ask for it. */
bool folder_is_count(uint64_t k);
bool folder_same(const struct snapshot *a, const struct snapshot *b);

/* What stands in a segment. */
struct segment_view {
    const uint64_t *lines, *data, *own; /* the lines of the processes; the data words; the log's own */
    uint64_t procs, cap, width, number, before, count, closed;
};
struct log_view {
    struct segment_view segment[MOST_FILES]; /* those from the first that is not dropped on, without a gap */
    uint64_t count, first, last, reader;     /* reader: its cursor, or 0 */
    uint64_t procs, messages, dropped;
    uint64_t numbers[64];
};

/* Reads the log, and fails where it is not one: a gap, a segment that is not closed before the last, base numbers that do not follow, words
 * that break a rule, messages that are lost, doubled or out of order, a file of another name. */
void log_view(const struct log_files *files, struct log_view *view);
/* The sender and number of the message with this ordinal (the first of the log is 0). */
bool log_message(const struct log_view *view, uint64_t ordinal, uint64_t *sender, uint64_t *number);
uint64_t log_ordinal(const struct log_view *view, uint64_t cursor);
uint64_t value_of(uint64_t sender, uint64_t number, uint64_t j);
/* Whether the sender stands in the lock of a segment, from this one on. */
bool log_stands(const struct log_view *view, uint64_t from, uint64_t sender);

/* Whether an append was cut in two after its commit. */
bool log_is_half_done(const struct log_view *view);

#endif
