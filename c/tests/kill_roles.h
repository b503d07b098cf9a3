/* What the processes of kill_test do, and what has to hold of the file whenever one of them is killed. */
#ifndef KILL_ROLES_H
#define KILL_ROLES_H
#include "expect.h"
#include "monitor.h"

enum { PROCS = 3, CAP = 5, TURNS = 2, VICTIMS = 2 };

/* What the callers of an index have been answered, which no kill takes back. */
struct duty {
    uint64_t attached; /* attach has answered 0, and no detach or reaping after it */
    uint64_t inside;   /* a lock has let it in, and it has not begun to unlock; nobody has repaired its data */
    uint64_t stored;   /* the number of the last append that was answered */
    uint64_t closed;   /* a close was answered */
    uint64_t notice;   /* a reaping of one who died inside was answered or notified, and no orderly detach after it; not of a pair */
    uint64_t reaped;   /* a reaping was answered, and no attach after it */
    uint64_t found;    /* a reaper began where it stood inside, and no attach after it; of a pair it is not asked */
};

/* Shared by the tracer and its children. */
struct shared {
    struct duty duty[VICTIMS];
    uint64_t leased[VICTIMS]; /* the index has a living process */
    uint64_t sent, repaired;
    struct monitor monitor;
};

enum role { RESTART, RECOVER, GLANCE, REAP, LOCK_REAPING, ROLES };

extern const char *path;
extern uint64_t width, length, words, messages[VICTIMS];
extern bool still, pair; /* index 1 lives, and stands where it stands; it dies too */
extern struct shared *shared;
extern unsigned char *file;

/* Words of the file, by their places in the block. */
uint64_t *word(uint64_t place);
uint64_t *mark(uint64_t index);
uint64_t *dirty(void);
bool stands(uint64_t index, uint64_t choosing, bool number, uint64_t inside);
bool is_inside(uint64_t index);

/* Plays a role at an index, to its end. */
void play(enum role, uint64_t index);
/* Others, beside those who are dead: one at index 2 goes inside where nobody stands in its way; one at index 2 by
 * rme_lock_reaping; one at index 2 dies too, and a last one without an index reaps all. */
enum visitor { LOCKS, REAPS, DIES, VISITORS };
void visit(enum visitor);
/* What has to hold at every instant, whoever is dead; and after a whole run. */
void examine_words(void);
void examine_end(enum role, uint64_t index, bool began_idle, bool began_inside);
/* Makes the file, with a message of index 1. */
void begin_file(const char *name);

#endif
