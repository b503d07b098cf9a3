/* The state of a file, for supervisors and tools; and texts. It comes with rme.h. No call here changes a word. */
#ifndef RME_STATUS_H
#define RME_STATUS_H

#include "rme.h"

#ifdef __cplusplus
extern "C" {
#endif

/* The state of a file. Each number is read by itself: they are of one moment only where all processes have stopped. */
struct rme_file {
    uint64_t procs, cap, width, limit, words, data_bytes;
    uint64_t count, closed, ruined;
};

/* The state of an index: its lock words, and what rme_recover would find in them (RME_FOUND_.., or 0 where they are corrupt). */
enum rme_life { RME_ABSENT = 0, RME_ALIVE, RME_DEAD, RME_IN_REAPING };
struct rme_index {
    uint64_t choosing, number, inside;
    int found;
    int life;   /* no process is attached; one is; one died and its place is not released; a reaper acts for it */
    int reaped; /* as rme_reaped answers after the next attach */
    int64_t pid;             /* of the process that attached last, as it sees itself; 0 none since an orderly end */
    uint64_t entries, waits; /* how often a process of this index has entered, and how often it had to wait for that */
};

/* Opens the file to read it: nothing in it is changed, and read permission is enough. Such a seat has no index. It may be used
 * with rme_read_from, rme_data (which must not be written), rme_file_status, rme_index_status, rme_copy_words and rme_detach.
 * Errors: those of rme_attach but EBUSY */
int rme_inspect(struct rme_seat *seat, const char *path);

/* Reads the state of the file. */
int rme_file_status(const struct rme_seat *seat, struct rme_file *status);

/* Reads the state of an index. Its lease shows who is alive, and is not taken for that.
 * Errors:
 *     EINVAL no such index
 *     and those of fcntl */
int rme_index_status(const struct rme_seat *seat, uint64_t index, struct rme_index *status);

/* Answers the pid of the living process that has this index, as that process sees itself; 0 where none has it, or the index is none.
 * It is what the file says: whoever may write the file can say another. */
int64_t rme_pid(const struct rme_seat *seat, uint64_t index);

/* Answers how many words it has copied, at most room: the block as rme_content_rule and rmelab's images have it, the lock words
 * of each process and then the data words. They are of one moment only where all processes have stopped. */
uint64_t rme_copy_words(const struct rme_seat *seat, uint64_t *words, uint64_t room);

/* Answers sizeof (struct rme_seat), for callers that do not read this file. */
size_t rme_seat_size(void);

/* Answers the library's version, as RME_VERSION. */
const char *rme_version(void);

/* Answers what an error of these calls says, in words of the lock; else what strerror says. */
const char *rme_strerror(int error);

#ifdef __cplusplus
}
#endif
#endif
