/* The machine of one process: it names the shared word that the process loads or stores next, and says what that access was. It is
 * proved (crates/rme_c) and part of librme. Its structs are plain numbers, which C keeps and hands back. */
#ifndef RME_MACHINE_H
#define RME_MACHINE_H

#include <stddef.h>
#include <stdint.h>

#ifdef __cplusplus
extern "C" {
#endif

/* The private memory of a process. Its fields are the machine's own: with any numbers here each call of the machine is safe and
 * answers, and numbers that no call has left are those of a process that has crashed. */
struct rme_process {
    uint64_t procs, cap, width, limit, index;
    uint64_t position[4];
    uint64_t unmended, barred, steps;
    uint64_t value[8];
};

struct rme_call {
    uint64_t code, number, value[8];
};

/* The next load (store is 0) or store of the word at `place`; after an answer `value` is the board word answered. */
struct rme_access {
    uint64_t store, place, value;
};

enum rme_code {
    RME_LOCK = 1, RME_UNLOCK, RME_CONSISTENT, RME_RECOVER, RME_APPEND, RME_CLOSE, RME_GET, RME_PUT, RME_WITHDRAW
};

/* Why nothing was done: the number that rme_init, rme_start and rme_next answer. 0: it was done. */
enum rme_refusal {
    RME_BAD_PROCS = 1, RME_BAD_LIMIT, RME_NO_SUCH_PROCESS, RME_CALL_UNDER_WAY, RME_NOT_OWNER, RME_ALREADY_IN,
    RME_NOTHING_TO_DO, RME_BAD_CAP, RME_NOT_INCONSISTENT = 10, RME_UNMENDED = 12, RME_BAD_INDEX, RME_NOT_WAITING,
    RME_BAD_WIDTH
};

/* What rme_feed answers: RME_LOAD and the place of the word that comes next, which is loaded (the access shown is as before);
 * 0 the call goes on with the access shown, RME_NOTHING_TO_DO, RME_BLOCKED (the word shown is read again), or how the call
 * ended. */
enum rme_answer {
    RME_BLOCKED = 16, RME_CLEAN, RME_OWNER_DIED, RME_NUMBERS_SPENT, RME_NOT_RECOVERABLE, RME_UNLOCKED, RME_WITHDRAWN,
    RME_FOUND_IDLE, RME_FOUND_LEFT, RME_FOUND_DOORWAY, RME_FOUND_WAITING, RME_FOUND_INSIDE,
    RME_STORED, RME_ALREADY, RME_OUT_OF_ORDER, RME_FULL, RME_CLOSED, RME_CLOSED_NOW, RME_ALREADY_CLOSED,
    RME_MENDED, RME_NOTHING_TO_MEND, RME_WORD, RME_DONE,
    RME_LOAD = 64
};

/* A run: accesses that follow one another as long as each load reads 0. `line` is a process's three lock words: choosing, number
 * and inside; `own` is that of this process. The accesses of a run are made in order, up to the first word that is not 0; then
 * rme_feed_run is given how many came before the last one, and what that read (0 for a store). From RME_RUN on rme_start_run and
 * rme_feed_run answer a run. What else rme_feed_run answers is as rme_feed says, and what rme_start_run does, as rme_start.
 *
 * Two more take the steps of stores before these are made. rme_leave starts an unlock: it answers RME_UNLOCKED, and the accesses of
 * RME_LEAVES are made then; or 0, and has done nothing: just where the unlock is refused or there is something to mend.
 * rme_feed_append is called where an append has been started, with the three words that it loads first: data words 1 and 2, and the
 * process's last number, data word 10 + width + index. It answers 1, and the stores that it names are made then, in order: all are of
 * data words. Or it answers 0, and has done nothing: just where no append is at its first load, or its call has taken 2^62 steps. */
enum rme_run {
    RME_RUN = 256,
    RME_PEEKS = RME_RUN, /* and a process: loads number of each other process, from this one on */
    RME_LOOKS = 320,     /* and a process: loads choosing and number of each other process, from this one on */
    RME_LOCKS = 384,     /* loads own choosing, number and inside; then as RME_OPENS, RME_TAKES with number 1, RME_MARKS */
    RME_OPENS,           /* stores own choosing 1; then as RME_PEEKS and process 0 */
    RME_TAKES,           /* stores own number, the value of the access shown, and own choosing 0; then as RME_LOOKS and process 0 */
    RME_MARKS,           /* stores own inside 1; loads the first data word */
    RME_LEAVES           /* stores own number 0 and own inside 0 */
};

/* What rme_feed_append hands out: what rme_feed would answer, and the stores of the append in order, of which `count` are named. */
struct rme_stores {
    uint64_t answer, count;
    struct rme_access each[24];
};

uint64_t rme_words(uint64_t procs, uint64_t cap, uint64_t width);
uint64_t rme_init(struct rme_process *, uint64_t procs, uint64_t cap, uint64_t width, uint64_t limit, uint64_t index);
void rme_crash(struct rme_process *);
uint64_t rme_start(struct rme_process *, const struct rme_call *, struct rme_access *);
uint64_t rme_next(const struct rme_process *, struct rme_access *);
uint64_t rme_feed(struct rme_process *, uint64_t value, struct rme_access *);
uint64_t rme_start_run(struct rme_process *, const struct rme_call *, struct rme_access *);
uint64_t rme_feed_run(struct rme_process *, uint64_t zeros, uint64_t value, struct rme_access *);
uint64_t rme_leave(struct rme_process *, struct rme_access *);
uint64_t rme_feed_append(struct rme_process *, uint64_t closed, uint64_t count, uint64_t last, struct rme_stores *, struct rme_access *);
uint64_t rme_step_count(const struct rme_process *);

/* The rule that copied words break first, from 2 to 9 (docs/dev/texts.md); or one of these. It alone takes memory. */
enum rme_rule { RME_LAWFUL = 0, RME_NO_BLOCK = 1, RME_NO_MEMORY = 16 };
uint64_t rme_content_rule(const uint64_t *words, size_t count, uint64_t procs, uint64_t cap, uint64_t width, uint64_t limit);

#ifdef __cplusplus
}
#endif
#endif
