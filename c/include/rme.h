/* A recoverable first-come first-served lock with a mailbox, between processes that may really die. docs/use/c.md says what is
 * proved of it, what is trusted, and how a supervisor starts a process again.
 *
 * Two layers, both in librme. The machine (proved) names the shared word that a process loads or stores next, and says what that
 * access was. The shim (not proved) makes each access that the machine names, and waits (rme.c), manages the file (file.c), and recovers
 * on behalf of the dead (reap.c). status.c reads the state of a file.
 *
 * The next holder sees all that a holder wrote before its rme_unlock, in plain writes to rme_data or to other memory that both map: each
 * store of the shim into the words is sequentially consistent, an exchange (xchg on x86-64). No earlier write is reordered after it, and
 * no later load before it, which the lock itself needs. After a death inside, the next holder or a repair may find any part of what
 * was being written. */
#ifndef RME_H
#define RME_H

#include "rme_machine.h"
#include <stdbool.h>
#include <sys/types.h>
#include <time.h>

#ifdef __cplusplus
extern "C" {
#endif

/* ---- the file that processes share ----
 *
 * A page with the header; a page with a cache line for each process: its three lock words, the set of those who sleep on one of
 * them, its pid and what it counts; the data words; from the next multiple of 64 bytes on the caller's own data. */

#define RME_VERSION "2.0.0" /* of the library */
#define RME_MAGIC UINT64_C(0x31656d7265726d65)
#define RME_FORMAT UINT64_C(2) /* of the file */
#define RME_HEADER 4096
#define RME_LIMIT (UINT64_C(1) << 62)

/* `marks` are 0 at rest. Bit 0 (RME_ATTACHED) is set from an attach until an orderly rme_detach, so an attach that finds it set recovers
 * from a crash. Times 256 (RME_REAPED): where reapers found a dead process whose place they have released (RME_FOUND_..), kept until an
 * orderly rme_detach; times 65,536: where a reaper found one whose place it may not have released yet. */
enum { RME_ATTACHED = 1, RME_REAPED = 256 };
struct rme_header {
    uint64_t magic, format, header, words, procs, cap, width, limit, data_bytes;
    uint64_t marks[64];
};

/* One living process at its index, or a file that is only read. A program allocates it: rme_attach and rme_inspect fill it, whatever
 * was there before; a second of them on an attached seat loses the first, whose index stays taken until the process ends. A seat of all
 * zeros is not attached. It must stay at its address: a copy, or a seat that was moved, is not attached, and its calls answer EINVAL. */
struct rme_seat {
    struct rme_process machine;
    struct rme_header *header; /* null: not attached */
    /* Eight words for each process; the data words; whether a call is under way; the sleepers on the word that it last waited for. */
    uint64_t *lines, *words, *state, *blocked_at;
    uint64_t count, length, data_bytes, turn, yields, pauses, device, inode, interrupted;
    const struct rme_seat *self; /* where it was filled */
    int file, reaped;
    bool crashed, astray;
};

struct rme_message {
    uint64_t sender, number, value[8];
};

/* Repairs the caller's own data after the process `index` died inside. It acts as that process, inside, with the lock's data area.
 * It answers 0: repaired; EINTR: not repaired now, and the place is left for the next reaper (the reaping answers EINTR); anything else: the
 * data are lost, and the lock is ruined for all. It must be idempotent, since it may be killed and called again. It may use rme_get,
 * rme_put, rme_read_from and rme_consistent of `dead`, and must neither detach nor unlock it. A child that it forks does not act for the
 * dead process. */
typedef int rme_repair(struct rme_seat *dead, uint64_t index, void *data, size_t data_bytes, void *context);

/* Each call answers 0 or one of its errors, unless it says `Answers`. Each call with a seat has these errors too:
 *     EINVAL  the seat is not attached in this process (a child of fork may only read through it), it is a copy, or a required
 *             pointer is null
 *     EBUSY   a call with this seat is under way: in another thread, or in the one that this signal handler has interrupted; or,
 *             but for locks, rme_blocker, rme_withdraw, rme_read_from and rme_detach: its lock was left after ETIMEDOUT
 *     EBADMSG the file is corrupt: a word would index out of range; nothing is stored there
 *     EBADF   only of calls that ask for a lease (rme_lock_reaping, rme_lock_reaping_until, rme_blocker, rme_index_status, rme_pid): the
 *             seat's descriptor was closed, or belongs to another file now
 * A seat is used by one thread at a time. No call with a seat is a point of cancellation, and cancellation is off in the others;
 * none may be left by longjmp or asynchronous cancellation. Cutting the file short while it is mapped ends in SIGBUS. */

/* Makes the file, whole, under this name: for procs processes (1 to 64), cap messages (1 to 65,536, which nothing ever
 * removes) of width words (1 to 8), and data_bytes bytes of the caller's own, all 0. Its mode is 0600.
 * Errors:
 *     EEXIST       there is such a name already, on a full or read-only disk too; nothing is changed
 *     EINVAL       sizes out of range
 *     EFBIG        data_bytes is too great
 *     ENAMETOOLONG the name is too long
 *     and those of open, posix_fallocate, write and linkat */
int rme_create(const char *path, uint64_t procs, uint64_t cap, uint64_t width, uint64_t data_bytes);

/* The same, with this mode and group. The umask does not change the mode; the group (gid_t)-1 is the system's default. Whoever may write
 * the file can take part, and can break the lock for all.
 * Errors:
 *     EINVAL sizes out of range, or a mode above 0777 or one that is not the owner's to read and write
 *     EPERM  this process may not give the file this group
 *     and the others of rme_create */
int rme_create_as(const char *path, uint64_t procs, uint64_t cap, uint64_t width, uint64_t data_bytes, mode_t mode, gid_t group);

/* Takes the index in the file. This process holds it until rme_detach or its end (its children too, until they close the file, call
 * exec or end). Never replace a file in use: whoever is attached stays with the old file, which is another lock then, and no call can
 * see that.
 * Errors:
 *     EBUSY   a living process has this index, or a reaper acts for it
 *     EINVAL  no such index
 *     EBADMSG no file of this kind: another magic number, or cut short
 *     EPROTO  of another format, or its sizes do not fit
 *     ESTALE  another file has taken its name meanwhile
 *     ENOSPC  it is a copy with holes, for which the disk has no room
 *     and those of open, fstat, pread, fcntl and mmap */
int rme_attach(struct rme_seat *seat, const char *path, uint64_t index);

/* The same, and waits at most `milliseconds` for a reaper that acts for the index.
 * Errors:
 *     EBUSY     a living process has this index
 *     ETIMEDOUT a reaper still acts for it
 *     and the others of rme_attach */
int rme_attach_within(struct rme_seat *seat, const char *path, uint64_t index, uint64_t milliseconds);

/* Takes the index in the file of this descriptor, as rme_attach_within does. The file is opened anew, through /proc: the descriptor
 * stays the caller's, and a process that shares it does not hold the index.
 * Errors:
 *     EBADF  no descriptor
 *     ENOENT /proc is not mounted
 *     and those of rme_attach_within but ESTALE */
int rme_attach_file(struct rme_seat *seat, int file, uint64_t index, uint64_t milliseconds);

/* Gives the index back and closes the file. The seat is not attached any more, but after EINVAL of a null pointer and EBUSY of a
 * call under way. In a child of fork it closes the child's share of the file, and answers EINVAL.
 * Errors:
 *     EBUSY   it was inside, in line, or an earlier process of the index had died there: this counts as a crash, from which the next
 *             attach recovers */
int rme_detach(struct rme_seat *seat);

/* Waits for its turn and enters. A lock left after ETIMEDOUT goes on in its place. It is not recursive.
 * Errors:
 *     EOWNERDEAD      inside: an earlier process of this index died inside. Repair your data, then call rme_consistent
 *     ENOTRECOVERABLE the lock is ruined; not inside
 *     EDEADLK         inside already
 *     EOVERFLOW       the numbers are spent; not inside
 *     EINTR           rme_interrupt was called; not inside, and in line */
int rme_lock(struct rme_seat *seat);

/* The same, for at most `turns` readings of words that block it: it pauses between them, and later sleeps for at most a millisecond.
 * Errors:
 *     ETIMEDOUT still not inside: it keeps its place in line; rme_lock.. goes on, rme_withdraw gives the place up
 *     and those of rme_lock */
int rme_lock_within(struct rme_seat *seat, uint64_t turns);

/* The same, up to this time of CLOCK_MONOTONIC. A time that has passed: it looks once whether it can enter.
 * Errors:
 *     EINVAL    until is null, or no time
 *     ETIMEDOUT still not inside: it keeps its place in line
 *     and those of rme_lock */
int rme_lock_until(struct rme_seat *seat, const struct timespec *until);

/* Enters where nobody is in the way, and waits for nobody.
 * Errors:
 *     EAGAIN somebody is in the way, or takes its number just now: not inside, and not in line
 *     EBUSY  in line since an earlier lock: it keeps its place there
 *     and those of rme_lock but EINTR */
int rme_trylock(struct rme_seat *seat);

/* Ends a lock of this seat that waits: it answers EINTR and keeps its place in line, as after ETIMEDOUT. Where none waits, the next
 * that would wait answers so. A signal handler may call it, and another thread. A lock that sleeps sees it when it wakes: at once
 * in the thread that the handler has interrupted, in 50 milliseconds elsewhere.
 * Errors:
 *     EINVAL the seat is not attached */
int rme_interrupt(struct rme_seat *seat);

/* Waits for its turn and enters, and reaps the dead who block it. After `turns` blocked readings, and again after as many (at least 50)
 * or a sleep of at most 20 milliseconds, it checks whether the process that blocks it lives. After an error of the reaping it keeps its
 * place, as after ETIMEDOUT.
 * Errors: those of rme_lock, and of fcntl */
int rme_lock_reaping(struct rme_seat *seat, uint64_t turns, rme_repair *repair, void *context);

/* The same, up to this time of CLOCK_MONOTONIC, or for ever where it is null.
 * Errors:
 *     EINVAL    no time
 *     ETIMEDOUT still not inside: it keeps its place in line
 *     and those of rme_lock_reaping */
int rme_lock_reaping_until(struct rme_seat *seat, uint64_t turns, const struct timespec *until, rme_repair *repair, void *context);

/* After ETIMEDOUT: the process that it last waited for, and whether that lives (or a reaper acts for it). Either may be null.
 * rme_pid says its pid.
 * Errors:
 *     EINVAL it does not wait
 *     and those of fcntl */
int rme_blocker(struct rme_seat *seat, uint64_t *index, bool *alive);

/* Gives up the place in line after ETIMEDOUT.
 * Errors:
 *     EINVAL it does not wait */
int rme_withdraw(struct rme_seat *seat);

/* Leaves. The next holder sees all that this process wrote inside, in plain writes too. Without rme_consistent after EOWNERDEAD it ruins
 * the lock for all.
 * Errors:
 *     EPERM not inside */
int rme_unlock(struct rme_seat *seat);

/* Inside after EOWNERDEAD: finishes what the dead process left half done in the mailbox, and marks the lock as repaired.
 * Errors:
 *     EINVAL          nothing to repair
 *     EPERM           not inside
 *     ENOTRECOVERABLE the lock is ruined */
int rme_consistent(struct rme_seat *seat);

/* Says where an earlier process of this index stood: *found (may be null) gets RME_FOUND_... It waits for nobody. After
 * RME_FOUND_INSIDE this process is inside, as after EOWNERDEAD; after RME_FOUND_DOORWAY and RME_FOUND_WAITING it still blocks
 * others, until it has locked.
 * Errors:
 *     EDEADLK inside already */
int rme_recover(struct rme_seat *seat, int *found);

/* Stores a message, of width words at value, as this process's next. The numbers of a process go 1, 2, 3 ...
 * Errors:
 *     EALREADY   the message with this number is there already
 *     EINVAL     not the next number, or value is null
 *     ENOSPC     full
 *     EPIPE      closed
 *     EPERM      not inside
 *     EOWNERDEAD not repaired yet */
int rme_append(struct rme_seat *seat, uint64_t number, const uint64_t *value);

/* Closes the mailbox: nothing is appended any more.
 * Errors:
 *     EALREADY   it was closed
 *     EPERM      not inside
 *     EOWNERDEAD not repaired yet */
int rme_close(struct rme_seat *seat);

/* Reads word i (0 to 3) of the board; *word may not be null.
 * Errors:
 *     EINVAL no such word
 *     EPERM  not inside */
int rme_get(struct rme_seat *seat, uint64_t i, uint64_t *word);

/* Writes word i (0 to 3) of the board.
 * Errors:
 *     EINVAL no such word
 *     EPERM  not inside */
int rme_put(struct rme_seat *seat, uint64_t i, uint64_t word);

/* Answers how many messages it has copied, at most room, from the one at this place (the first is 0) on; 0 also where the seat is
 * not attached. It needs no lock. */
uint64_t rme_read_from(const struct rme_seat *seat, uint64_t place, struct rme_message *messages, uint64_t room);

/* Answers the caller's own data in the file, at a multiple of 64; *bytes (may be null) gets their length. Null and 0 where there
 * are none or the seat is not attached. The lock guards them: access them only inside. */
void *rme_data(const struct rme_seat *seat, size_t *bytes);

/* Releases the place of a process that died and is not started again. Where it died inside, repair (if not null) is called with
 * context, the mailbox is repaired, and the lock is left; else its place in line is given up. It waits for nobody. A reaper that is
 * killed leaves the place to the next.
 * Errors:
 *     ESRCH           nothing to do: nobody died here since the last rme_detach or reaping
 *     EBUSY           a living process has this index, or another reaper acts for it
 *     EINTR           repair answered EINTR: the place is not released
 *     ENOTRECOVERABLE its place is released, but the lock is ruined: it was before, or repair has answered that the data are lost
 *     EBADMSG         no file of this kind, or it is corrupt
 *     and the others of rme_attach */
int rme_reap(const char *path, uint64_t index, rme_repair *repair, void *context);

/* The same for each index; *reaped (may be null) gets how many places were released. ESRCH and EBUSY of an index are no errors.
 * Errors: those of rme_reap, the first that an index had; the others are reaped all the same */
int rme_reap_all(const char *path, rme_repair *repair, void *context, uint64_t *reaped);

/* Answers whether an earlier process of this index died, and nobody has released its place: true from the attach on. */
bool rme_crashed(const struct rme_seat *seat);

/* Answers where a reaper found an earlier process of this index that had died (RME_FOUND_..), or 0 where none was reaped since
 * the last orderly rme_detach or rme_acknowledge. RME_FOUND_INSIDE: a reaper has finished or repaired what that process did inside. Where
 * reapers found several, it is the one that was furthest. A process that dies before it has called either leaves the answer to the next. */
int rme_reaped(const struct rme_seat *seat);

/* Acknowledges what rme_reaped answers: from now on, and after the next attach, that is 0. */
int rme_acknowledge(struct rme_seat *seat);

#ifdef __cplusplus
}
#endif

#include "rme_status.h"
#endif
