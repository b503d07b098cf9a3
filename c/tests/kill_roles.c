#define _GNU_SOURCE
#include "kill_roles.h"

#include <errno.h>
#include <fcntl.h>
#include <stdio.h>
#include <stdlib.h>
#include <string.h>
#include <sys/mman.h>
#include <sys/stat.h>
#include <sys/wait.h>
#include <unistd.h>

const char *path;
uint64_t width, length, words, messages[VICTIMS];
bool still, pair;
struct shared *shared;
unsigned char *file;

/* ---- words ---- */

static uint64_t *at(uint64_t offset) { return (uint64_t *)(void *)(file + offset); }
uint64_t *word(uint64_t place) { return at(offset_of(place, PROCS)); }
uint64_t *mark(uint64_t index) { return at(offsetof(struct rme_header, marks) + 8 * index); }
uint64_t *dirty(void) { return at(length - 64); } /* the caller's own data: 64 bytes at the end of the file */
static uint64_t data(uint64_t place) { return *word(3 * PROCS + place); }

bool stands(uint64_t index, uint64_t choosing, bool number, uint64_t inside)
{
    return *word(3 * index) == choosing && (*word(3 * index + 1) != 0) == number && *word(3 * index + 2) == inside;
}

bool is_inside(uint64_t index) { return stands(index, 0, true, 1); }
static bool is_out(uint64_t index) { return stands(index, 0, false, 0) || stands(index, 0, false, 1); }

static uint64_t value_of(uint64_t sender, uint64_t number, uint64_t j) { return sender * 1000003 + number * 7 + j + 1; }

static int append(struct rme_seat *seat, uint64_t sender, uint64_t number)
{
    uint64_t value[8] = {0};
    for (uint64_t j = 0; j < width; j++)
        value[j] = value_of(sender, number, j);
    return TRACED(rme_append(seat, number, value));
}

/* How many messages of the sender stand below count. Each has to stand in its order and with its value. */
static uint64_t stored_of(uint64_t sender)
{
    uint64_t found = 0;
    for (uint64_t a = 0; a < data(2); a++) {
        const uint64_t entry = 10 + width + PROCS + (2 + width) * a;
        if (data(entry) != sender)
            continue;
        if (data(entry + 1) != ++found)
            fail("a message lost, doubled or out of order", (int64_t)data(entry + 1));
        for (uint64_t j = 0; j < width; j++)
            if (data(entry + 2 + j) != value_of(sender, found, j))
                fail("a message of another value", (int64_t)found);
    }
    return found;
}

static void examine_duty(uint64_t index)
{
    const struct duty *duty = &shared->duty[index];
    if (stored_of(index) < duty->stored || stored_of(index) > messages[index])
        fail("a message that was answered is lost, or one is there that was not sent", (int64_t)stored_of(index));
    if (duty->attached && *mark(index) == 0)
        fail("a death after attach that no later attach will tell", (int64_t)index);
    if (!stands(index, 0, false, 0) && (*mark(index) & RME_ATTACHED) == 0)
        fail("words of a dead process whose mark is not set", (int64_t)index);
    if (duty->closed && data(1) != 1)
        fail("a close that was answered is lost", (int64_t)index);
    if (duty->inside && !is_inside(index))
        fail("one who died inside does not stand inside", (int64_t)index);
}

void examine_words(void)
{
    uint64_t copy[512];
    for (uint64_t i = 0; i < words; i++)
        copy[i] = *word(i);
    const uint64_t rule = rme_content_rule(copy, words, PROCS, CAP, width, RME_LIMIT);
    if (rule != RME_LAWFUL)
        fail("the words break a rule", (int64_t)rule);
    if (data(0) != 0)
        fail("the lock is ruined", (int64_t)data(0));
    for (uint64_t index = 0; index < VICTIMS; index++)
        examine_duty(index);
    if (*dirty() && !is_inside(0) && !is_inside(1) && !is_inside(2))
        fail("data left half done, and nobody inside", (int64_t)*dirty());
}

void examine_end(enum role role, uint64_t index, bool began_idle, bool began_inside)
{
    examine_words();
    if (role == GLANCE && !began_idle)
        return;
    if (!stands(index, 0, false, 0))
        fail("a whole run leaves words", (int64_t)index);
    if (*mark(index) & RME_ATTACHED)
        fail("a whole run leaves its mark", (int64_t)*mark(index));
    const bool alone = !still && is_out(0) && is_out(1);
    if (alone && role != REAP && role != GLANCE && !shared->sent)
        fail("a whole run has not sent", (int64_t)index);
    if (role == REAP && began_inside && *mark(index) != (uint64_t)RME_FOUND_INSIDE * RME_REAPED)
        fail("the mark does not say that one who died inside was reaped", (int64_t)*mark(index));
    if (role == REAP && began_inside != (shared->repaired != 0))
        fail("repair was called where nobody died inside, or not where one did", (int64_t)shared->repaired);
}

/* ---- roles ---- */

static int repair(struct rme_seat *dead, uint64_t index, void *own_data, size_t bytes, void *context)
{
    struct rme_message read[CAP];
    in_test();
    if (index >= PROCS || context != shared || bytes != 64 || !own_data || !is_inside(index))
        fail("repair is called with other arguments", (int64_t)index);
    if (rme_read_from(dead, 0, read, CAP) != data(2))
        fail("repair reads other messages", (int64_t)data(2));
    *(uint64_t *)own_data = 0;
    if (index < VICTIMS)
        shared->duty[index].inside = 0;
    shared->repaired++;
    in_library();
    return 0;
}

/* Inside: whoever comes here finds nothing half done, unless its lock answered so. */
static void work(struct rme_seat *seat, uint64_t index)
{
    struct duty *duty = &shared->duty[index];
    if (*dirty())
        fail("an entry beside one who is inside", (int64_t)*dirty());
    *dirty() = index + 1;
    for (uint64_t number = 1; number <= messages[index]; number++) {
        const uint64_t there = stored_of(index);
        expect("append", append(seat, index, number), number <= there ? EALREADY : data(1) ? EPIPE : 0);
        if (number > there && stored_of(index) != there + !data(1))
            fail("an append that was answered is not there", (int64_t)number);
        if (duty->stored < number && stored_of(index) >= number)
            duty->stored = number;
    }
    if (index == 0 && messages[0] > 1) {
        const bool closed = data(1) != 0;
        expect("close", TRACED(rme_close(seat)), closed ? EALREADY : 0);
        duty->closed = 1;
    }
    *dirty() = 0;
    shared->sent = 1;
}

static void leave(struct rme_seat *seat, uint64_t index)
{
    shared->leased[index] = 0;
    shared->duty[index].attached = shared->duty[index].notice = 0;
    expect("detach", TRACED(rme_detach(seat)), 0);
}

static void arrive(struct rme_seat *seat, uint64_t index)
{
    struct duty *duty = &shared->duty[index];
    const struct duty owed = *duty;
    duty->found = 0;
    expect("attach", TRACED(rme_attach(seat, path, index)), 0);
    shared->leased[index] = 1;
    duty->attached = 1;
    duty->reaped = 0;
    if (owed.attached && !rme_crashed(seat) && !rme_reaped(seat))
        fail("attach does not tell that an earlier process died", (int64_t)index);
    if (owed.reaped && !rme_reaped(seat) && !rme_crashed(seat))
        fail("attach does not tell that an earlier process was reaped", (int64_t)index);
    if (owed.inside && !rme_crashed(seat))
        fail("attach does not tell that an earlier process died inside", (int64_t)index);
    if (owed.notice && rme_reaped(seat) != RME_FOUND_INSIDE)
        fail("attach does not tell again what nobody has acknowledged", (int64_t)index);
    if (!pair && !owed.notice && is_inside(index) && rme_reaped(seat) == RME_FOUND_INSIDE)
        fail("attach tells of a repair that nobody has made", (int64_t)index);
    duty->notice |= !pair && rme_reaped(seat) == RME_FOUND_INSIDE;
    if (owed.found && !rme_crashed(seat) && rme_reaped(seat) != RME_FOUND_INSIDE)
        fail("attach does not tell that one who died inside was reaped", (int64_t)index);
}

/* Attaches, reads and leaves: where an earlier process died in the words, its death must not be hidden. */
static void glance(uint64_t index)
{
    struct rme_seat seat;
    struct rme_message read[CAP];
    const bool idle = stands(index, 0, false, 0);
    arrive(&seat, index);
    if (TRACED((int)rme_read_from(&seat, 0, read, CAP)) != (int)data(2))
        fail("other messages are read", (int64_t)data(2));
    shared->leased[index] = 0;
    if (idle)
        shared->duty[index].attached = shared->duty[index].notice = 0;
    expect("detach of one who has only read", TRACED(rme_detach(&seat)), idle ? 0 : EBUSY);
}

static int enter(struct rme_seat *seat, enum role role, uint64_t index)
{
    int found = 0;
    if (role == LOCK_REAPING)
        return TRACED(rme_lock_reaping(seat, TURNS, repair, shared));
    if (role == RECOVER) {
        const bool inside = is_inside(index);
        expect("recover", TRACED(rme_recover(seat, &found)), 0);
        if ((found == RME_FOUND_INSIDE) != inside)
            fail("recover finds another place", found);
    }
    return found == RME_FOUND_INSIDE ? EOWNERDEAD : TRACED(rme_lock_within(seat, TURNS));
}

static void session(enum role role, uint64_t index)
{
    struct rme_seat seat;
    struct duty *duty = &shared->duty[index];
    const uint64_t other = 1 - index;
    arrive(&seat, index);
    const bool died_inside = is_inside(index), other_inside = is_inside(other);
    const bool other_blocks = !is_out(other);
    const int entered = enter(&seat, role, index);
    if (entered == ETIMEDOUT && other_blocks && !died_inside && role != LOCK_REAPING) {
        expect("withdraw", TRACED(rme_withdraw(&seat)), 0);
        leave(&seat, index);
        return;
    }
    expect("lock", entered, died_inside ? EOWNERDEAD : 0);
    if (other_inside && role != LOCK_REAPING)
        fail("an entry beside one who died inside", (int64_t)other);
    duty->inside = 1;
    if (died_inside) {
        *dirty() = 0;
        expect("consistent", TRACED(rme_consistent(&seat)), 0);
    }
    work(&seat, index);
    duty->inside = 0;
    expect("unlock", TRACED(rme_unlock(&seat)), 0);
    leave(&seat, index);
}

static void reap(uint64_t index)
{
    const bool marked = (*mark(index) & RME_ATTACHED) != 0;
    shared->duty[index].found |= !pair && is_inside(index);
    expect("reap", TRACED(rme_reap(path, index, repair, shared)), marked ? 0 : ESRCH);
    if (marked)
        shared->duty[index].reaped = 1;
    shared->duty[index].attached = 0;
    shared->duty[index].notice |= !pair && *mark(index) / RME_REAPED == RME_FOUND_INSIDE;
    if (shared->duty[index].found && *mark(index) / RME_REAPED != RME_FOUND_INSIDE)
        fail("the mark does not say that one who died inside was reaped", (int64_t)*mark(index));
}

void play(enum role role, uint64_t index)
{
    if (role == REAP)
        reap(index);
    else if (role == GLANCE)
        glance(index);
    else
        session(role, index);
}

static void come_by(bool reaping)
{
    struct rme_seat seat;
    const bool inside = is_inside(0) || is_inside(1);
    const bool owed = shared->duty[0].inside || shared->duty[1].inside;
    expect("attach of index 2", rme_attach(&seat, path, 2), 0);
    const int entered = reaping ? rme_lock_reaping(&seat, TURNS, repair, shared) : rme_lock_within(&seat, TURNS);
    if (reaping)
        expect("a lock that reaps", entered, 0);
    else if (inside || owed)
        expect("an entry beside one who died inside", entered, ETIMEDOUT);
    else if (is_out(0) && is_out(1))
        expect("an entry where nobody is in the way", entered, 0);
    if (entered == ETIMEDOUT) {
        uint64_t blocker = PROCS;
        bool alive = false;
        expect("blocker", rme_blocker(&seat, &blocker, &alive), 0);
        if (blocker >= VICTIMS || is_out(blocker) || alive != (still && blocker == 1))
            fail("another one blocks", (int64_t)blocker);
        expect("withdraw of index 2", rme_withdraw(&seat), 0);
    } else {
        expect("lock of index 2", entered, 0);
        if (*dirty())
            fail("data left half done meet one who comes by", (int64_t)*dirty());
        const bool closed = data(1) != 0;
        expect("append of index 2", append(&seat, 2, 1), closed ? EPIPE : 0);
        if (stored_of(2) != !closed)
            fail("an append of index 2 that was answered is lost", 0);
        expect("unlock of index 2", rme_unlock(&seat), 0);
    }
    expect("detach of index 2", rme_detach(&seat), 0);
    examine_words();
}

/* Index 2 gets inside or into the line and ends; then all places are given up at once, but that of one who lives. */
static void die_and_reap_all(void)
{
    struct rme_seat seat;
    uint64_t dead = 0, reaped = 0;
    int status = 0;
    const pid_t child = fork();
    if (child == 0) {
        expect("attach of index 2", rme_attach(&seat, path, 2), 0);
        const int entered = rme_lock_within(&seat, TURNS);
        _exit(entered != 0 && entered != ETIMEDOUT);
    }
    if (child < 0 || waitpid(child, &status, 0) != child || status)
        fail("one who dies has failed", status);
    for (uint64_t index = 0; index < PROCS; index++)
        dead += (*mark(index) & RME_ATTACHED) && !(still && index == 1);
    expect("reap all", rme_reap_all(path, repair, shared, &reaped), 0);
    if (reaped != dead)
        fail("another number of dead is reaped", (int64_t)reaped);
    for (uint64_t index = 0; index < PROCS; index++)
        if (!(still && index == 1) && (!stands(index, 0, false, 0) || (*mark(index) & RME_ATTACHED)))
            fail("one who died is not reaped with all", (int64_t)index);
    examine_words();
}

void visit(enum visitor visitor)
{
    if (visitor == DIES)
        die_and_reap_all();
    else
        come_by(visitor == REAPS);
}

/* ---- the file ---- */

void begin_file(const char *name)
{
    struct rme_seat seat;
    path = name;
    unlink(path);
    expect("create", rme_create(path, PROCS, CAP, width, 64), 0);
    const int opened = open(path, O_RDWR | O_CLOEXEC);
    struct stat status;
    if (opened < 0 || fstat(opened, &status))
        fail("open", errno);
    length = (uint64_t)status.st_size;
    words = rme_words(PROCS, CAP, width);
    void *mapped = mmap(NULL, length, PROT_READ | PROT_WRITE, MAP_SHARED, opened, 0);
    void *common = mmap(NULL, sizeof *shared, PROT_READ | PROT_WRITE, MAP_SHARED | MAP_ANONYMOUS, -1, 0);
    if (mapped == MAP_FAILED || common == MAP_FAILED || length % 8 || words > 512)
        fail("mmap", errno);
    close(opened);
    file = mapped;
    shared = common;
    monitor = &shared->monitor;
    *monitor = (struct monitor){.file = file, .procs = PROCS, .words = words};
    expect("attach of index 1", rme_attach(&seat, path, 1), 0);
    expect("lock of index 1", rme_lock(&seat), 0);
    expect("append of index 1", append(&seat, 1, 1), 0);
    expect("unlock of index 1", rme_unlock(&seat), 0);
    expect("detach of index 1", rme_detach(&seat), 0);
}
