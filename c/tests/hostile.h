/* What the cases of hostile_test share: files, processes, and every call with its answers compared with those that rme.h names. */
#ifndef HOSTILE_H
#define HOSTILE_H
#include "rme.h"
#include <stdbool.h>

/* 14 + 3 * CAP data words are 512: they end where the file and its last page end. */
enum { PROCS = 3, WIDTH = 1, CAP = 166 };

extern char path[4096];
extern const char *folder;

_Noreturn void fail(const char *what, int64_t number);
void expect(const char *what, int got, int wanted);
/* The answer is 0 or one of these errors, which end with 0. */
void expect_one_of(const char *what, int got, const int *errors);

/* A new file; its bytes from `offset` on, a word long; its length. */
void new_file(uint64_t data_bytes);
void patch(uint64_t offset, uint64_t word);
void cut(uint64_t length);
uint64_t length_of(void);
/* How many names a folder has. */
unsigned entries_of(const char *name);
/* Where a word of the block lies in the file. */
uint64_t offset_of(uint64_t place);

/* Every call of a program, on the file as it is. What was answered has to be true of the file. */
void every_call(void);
/* Every call of the seat, which may be attached or not. */
void every_seat_call(struct rme_seat *seat);

/* hostile_disks.c: a full disk, a read-only one, a copy with holes; a limit of a file's length and of descriptors; a file that may
 * only be read. */
void full_disk(uint64_t which);
void read_only(uint64_t which);
void copy_with_holes(uint64_t full);
void file_too_big(uint64_t which);
void no_descriptors(uint64_t which);
void no_permission(uint64_t which);

/* Runs one case in a process of its own: it has to end with 0, or by this signal where one is named. Answers whether it did. */
bool run_case(const char *name, void (*body)(uint64_t), uint64_t argument, int allowed_signal);

#endif
