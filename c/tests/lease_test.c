/* Who has an index: over fork, exec, closed descriptors and killed reapers.
 *
 *     lease_test FOLDER [NAME] */
#define _GNU_SOURCE
#include "test.h"

#include <stdarg.h>
#include <sys/mman.h>
#include <sys/stat.h>
#include <sys/syscall.h>

enum { DATA_BYTES = 1000 };

/* Seen by all processes of a test. */
struct common { volatile int repairs, forked, answer; };
static struct common *common;
static bool no_proc;
static int opens_until_replaced;

/* In place of the C library's: where /proc is not mounted, and where the file is replaced under its name. */
int open(const char *name, int flags, ...)
{
    va_list rest;
    va_start(rest, flags);
    unsigned mode = va_arg(rest, unsigned);
    va_end(rest);
    if (no_proc && strncmp(name, "/proc/", 6) == 0)
        return errno = ENOENT, -1;
    if (opens_until_replaced && strcmp(name, path) == 0 && --opens_until_replaced == 0)
        EXPECT(rename(other_path, path), 0);
    return (int)syscall(SYS_openat, AT_FDCWD, name, flags, mode);
}

static void make_with_data(uint64_t procs)
{
    common = mmap(NULL, sizeof *common, PROT_READ | PROT_WRITE, MAP_SHARED | MAP_ANONYMOUS, -1, 0);
    unlink(path);
    EXPECT(rme_create(path, procs, 4, 1, DATA_BYTES), 0);
}

static int life_of(uint64_t index)
{
    struct rme_seat looks;
    struct rme_index status;
    EXPECT(rme_inspect(&looks, path), 0);
    EXPECT(rme_index_status(&looks, index, &status), 0);
    EXPECT(rme_detach(&looks), 0);
    return status.life;
}

static void expect_exit(pid_t child, int wanted)
{
    int status = 0;
    EXPECT(waitpid(child, &status, 0), child);
    EXPECT(WIFEXITED(status) ? WEXITSTATUS(status) : -1, wanted);
}

static void end_by_kill(pid_t child)
{
    kill(child, SIGKILL);
    waitpid(child, NULL, 0);
}

static int repair(struct rme_seat *dead, uint64_t index, void *data, size_t bytes, void *context)
{
    (void)dead, (void)index, (void)context;
    EXPECT(bytes, DATA_BYTES);
    EXPECT(data == rme_data(dead, NULL), true);
    ((unsigned char *)data)[bytes - 1] = 77;
    common->repairs++;
    return 0;
}

/* ---- descriptors that a program has closed ---- */

static int open_at(int number, const char *name)
{
    int file = open(name, O_RDWR | O_CREAT | O_CLOEXEC, 0600);
    if (file != number) {
        EXPECT(dup2(file, number), number);
        close(file);
    }
    return number;
}

/* One that lives is inside, the other's descriptor is closed, and its number used again. */
static void closed_descriptor(int how)
{
    struct rme_seat looks, seat, *living = mmap(NULL, 4096, PROT_READ | PROT_WRITE, MAP_PRIVATE | MAP_ANONYMOUS, -1, 0);
    struct rme_index status;
    bool alive;
    make_with_data(3);
    EXPECT(rme_attach(&seat, path, 1), 0);
    const int file = seat.file;
    if (how != 3)
        EXPECT(rme_attach(living, path, 0), 0);
    close(file);
    if (how == 1)
        open_at(file, other_path);
    if (how == 2)
        EXPECT(rme_inspect(&looks, path), 0);
    if (how == 3)
        EXPECT(rme_attach(living, path, 0), 0);
    EXPECT(how == 2 ? looks.file : how == 3 ? living->file : file, file);
    EXPECT(rme_lock(living), 0);
    EXPECT(rme_lock_reaping(&seat, 3, NULL, NULL), EBADF);
    EXPECT(rme_blocker(&seat, NULL, &alive), EBADF);
    EXPECT(rme_index_status(&seat, 0, &status), EBADF);
    EXPECT(rme_pid(&seat, 0), 0);
    EXPECT(rme_unlock(living), 0);
    EXPECT(rme_lock(&seat), 0);
    EXPECT(rme_unlock(&seat), 0);
    EXPECT(rme_detach(&seat), 0);
    EXPECT(fcntl(file, F_GETFD) < 0, how == 0);
    EXPECT(life_of(1), RME_ABSENT);
    EXPECT(life_of(0), RME_ALIVE);
    EXPECT(rme_detach(living), 0);
    EXPECT(life_of(0), RME_ABSENT);
}

static void descriptor_that_is_closed(void) { closed_descriptor(0); }
static void descriptor_of_another_file(void) { closed_descriptor(1); }
static void descriptor_of_the_file_by_another_open(void) { closed_descriptor(2); }
static void descriptor_of_another_seat(void) { closed_descriptor(3); }

/* ---- children ---- */

/* A child closes its share, and its parent is killed after that, inside or at rest: it has died all the same. */
static void detach_of_a_child(void)
{
    struct rme_seat seat;
    for (int inside = 0; inside < 2; inside++) {
        make_with_data(2);
        pid_t parent = fork();
        if (parent == 0) {
            EXPECT(rme_attach(&seat, path, 0), 0);
            if (inside)
                EXPECT(rme_lock(&seat), 0);
            pid_t child = fork();
            if (child == 0) {
                EXPECT(rme_detach(&seat), EINVAL);
                EXPECT(rme_detach(&seat), EINVAL);
                _exit(0);
            }
            expect_exit(child, 0);
            kill(getpid(), SIGKILL);
        }
        waitpid(parent, NULL, 0);
        EXPECT(life_of(0), RME_DEAD);
        EXPECT(rme_attach(&seat, path, 0), 0);
        EXPECT(rme_crashed(&seat), true);
        EXPECT(rme_lock(&seat), inside ? EOWNERDEAD : 0);
    }
}

/* A program that the process becomes has neither the file nor the index. */
static void exec_of_another_program(void)
{
    struct rme_seat seat;
    int ends[2];
    char byte;
    make_with_data(2);
    EXPECT(pipe2(ends, O_CLOEXEC), 0);
    pid_t child = fork();
    if (child == 0) {
        EXPECT(rme_attach(&seat, path, 0), 0);
        EXPECT(rme_lock(&seat), 0);
        execl("/bin/sleep", "sleep", "30", (char *)NULL);
        _exit(1);
    }
    close(ends[1]);
    EXPECT(read(ends[0], &byte, 1), 0); /* it is another program in a moment */
    for (int k = 0; k < 1000 && life_of(0) == RME_ALIVE; k++)
        nap(0.001);
    EXPECT(life_of(0), RME_DEAD);
    EXPECT(rme_attach(&seat, path, 0), 0);
    EXPECT(rme_lock(&seat), EOWNERDEAD);
    end_by_kill(child);
}

/* Whether each descriptor of the file is closed by exec; there has to be one. */
static bool all_close_on_exec(void)
{
    struct stat named, status;
    unsigned found = 0;
    EXPECT(stat(path, &named), 0);
    for (int file = 3; file < 256; file++) {
        if (fstat(file, &status) || status.st_ino != named.st_ino || status.st_dev != named.st_dev)
            continue;
        found++;
        if (!(fcntl(file, F_GETFD) & FD_CLOEXEC))
            return false;
    }
    return found > 0;
}

static int repair_that_looks(struct rme_seat *dead, uint64_t index, void *data, size_t bytes, void *context)
{
    EXPECT(all_close_on_exec(), true);
    return repair(dead, index, data, bytes, context);
}

static void descriptors_close_on_exec(void)
{
    struct rme_seat seat, looks;
    make_with_data(3);
    EXPECT(rme_attach(&seat, path, 0), 0);
    EXPECT(all_close_on_exec(), true);
    EXPECT(rme_inspect(&looks, path), 0);
    EXPECT(all_close_on_exec(), true);
    die(1, INSIDE);
    EXPECT(rme_lock_reaping(&seat, 3, repair_that_looks, NULL), 0);
    EXPECT(rme_unlock(&seat), 0);
    die(1, INSIDE);
    EXPECT(rme_reap(path, 1, repair_that_looks, NULL), 0);
    EXPECT(common->repairs, 2);
}

/* ---- reapers that fork ---- */

static int repair_that_forks(struct rme_seat *dead, uint64_t index, void *data, size_t bytes, void *context)
{
    (void)dead, (void)index, (void)data, (void)bytes, (void)context;
    pid_t child = fork();
    if (child == 0) {
        nap(30);
        _exit(0);
    }
    common->forked = child;
    kill(getpid(), SIGKILL);
    return 1;
}

/* The child of a reaper that was killed has no part in the dead one's index. */
static void child_of_a_killed_reaper(void)
{
    struct rme_seat seat;
    for (int k = 0; k < 20; k++) {
        const bool in_lock = k % 2;
        make_with_data(3);
        die(0, INSIDE);
        pid_t reaper = fork();
        if (reaper == 0) {
            if (in_lock)
                EXPECT(rme_attach(&seat, path, 1), 0);
            _exit(in_lock ? rme_lock_reaping(&seat, 3, repair_that_forks, NULL) : rme_reap(path, 0, repair_that_forks, NULL));
        }
        waitpid(reaper, NULL, 0);
        EXPECT(life_of(0), RME_DEAD);
        EXPECT(rme_reap(path, 0, repair, NULL), 0);
        EXPECT(common->repairs, 1);
        EXPECT(rme_attach(&seat, path, 0), 0);
        EXPECT(rme_reaped(&seat), RME_FOUND_INSIDE);
        EXPECT(rme_detach(&seat), 0);
        EXPECT(kill(common->forked, SIGKILL), 0);
    }
}

/* In a child of it the repair returns too, which it should not: the child acts for nobody. */
static int repair_of_two(struct rme_seat *dead, uint64_t index, void *data, size_t bytes, void *context)
{
    pid_t child = fork();
    if (child == 0)
        return 0;
    common->forked = child;
    nap(0.2); /* the child goes first */
    EXPECT(rme_get(dead, 0, &(uint64_t){0}), 0);
    return repair(dead, index, data, bytes, context);
}

static void child_that_returns_from_a_repair(void)
{
    struct rme_seat seat;
    const pid_t self = getpid();
    for (int in_lock = 0; in_lock < 2; in_lock++) {
        make_with_data(3);
        die(0, INSIDE);
        if (in_lock)
            EXPECT(rme_attach(&seat, path, 1), 0);
        const int answer = in_lock ? rme_lock_reaping(&seat, 3, repair_of_two, NULL) : rme_reap(path, 0, repair_of_two, NULL);
        if (getpid() != self)
            _exit(answer == EINVAL && (!in_lock || rme_unlock(&seat) == EINVAL) ? 0 : 1);
        EXPECT(answer, 0);
        expect_exit(common->forked, 0);
        EXPECT(common->repairs, 1);
        EXPECT(life_of(0), RME_ABSENT);
        if (in_lock)
            EXPECT(rme_unlock(&seat), 0);
    }
}

/* ---- a repair that does what it may not ---- */

static int repair_that_detaches(struct rme_seat *dead, uint64_t index, void *data, size_t bytes, void *context)
{
    EXPECT(rme_detach(dead), EINVAL);
    EXPECT(rme_lock_reaping(context ? (struct rme_seat *)context : dead, 3, NULL, NULL), context ? EBUSY : EDEADLK);
    return repair(dead, index, data, bytes, NULL);
}

static void detach_in_a_repair(void)
{
    struct rme_seat seat;
    make_with_data(3);
    die(0, INSIDE);
    EXPECT(rme_reap(path, 0, repair_that_detaches, NULL), 0);
    die(0, INSIDE);
    EXPECT(rme_attach(&seat, path, 1), 0);
    EXPECT(rme_lock_reaping(&seat, 3, repair_that_detaches, &seat), 0);
    EXPECT(common->repairs, 2);
    EXPECT(rme_unlock(&seat), 0);
    EXPECT(rme_detach(&seat), 0);
}

/* ---- reapers and those who wait ---- */

static int repair_that_waits(struct rme_seat *dead, uint64_t index, void *data, size_t bytes, void *context)
{
    common->answer = 1;
    nap(30);
    return repair(dead, index, data, bytes, context);
}

static void blocked_by_a_reaper(void)
{
    struct rme_seat seat;
    uint64_t index = 9;
    bool alive = false;
    make_with_data(2);
    die(0, INSIDE);
    pid_t reaper = fork();
    if (reaper == 0)
        _exit(rme_reap(path, 0, repair_that_waits, NULL));
    while (!common->answer)
        nap(0.001);
    EXPECT(rme_attach(&seat, path, 1), 0);
    EXPECT(rme_lock_within(&seat, 3), ETIMEDOUT);
    EXPECT(rme_blocker(&seat, &index, &alive), 0);
    EXPECT(index == 0 && alive, true);
    EXPECT(rme_pid(&seat, 0), 0);
    EXPECT(life_of(0), RME_IN_REAPING);
    end_by_kill(reaper);
    EXPECT(rme_blocker(&seat, &index, &alive), 0);
    EXPECT(index == 0 && !alive, true);
}

/* A reaper gives up a place in line without a blocked reading. */
static void reaper_waits_for_nobody(void)
{
    struct rme_seat holder, looks;
    struct rme_index before, after;
    make_with_data(3);
    EXPECT(rme_attach(&holder, path, 1), 0);
    EXPECT(rme_lock(&holder), 0);
    die(0, IN_LINE);
    EXPECT(rme_inspect(&looks, path), 0);
    EXPECT(rme_index_status(&looks, 0, &before), 0);
    EXPECT(before.found == RME_FOUND_WAITING && before.waits > 0, true);
    EXPECT(rme_reap(path, 0, repair, NULL), 0);
    EXPECT(rme_index_status(&looks, 0, &after), 0);
    EXPECT(after.waits, before.waits);
    EXPECT(after.life == RME_ABSENT && after.found == RME_FOUND_IDLE && after.pid == 0, true);
    EXPECT(common->repairs, 0);
}

static int lose(struct rme_seat *dead, uint64_t index, void *data, size_t bytes, void *context)
{
    (void)dead, (void)index, (void)data, (void)bytes;
    return *(int *)context;
}

/* After an error a reaper has no lease: neither one of its own file, nor, where /proc is not mounted, of its seat's. */
static void lease_after_an_error(void)
{
    static const int said[] = {1, EINTR};
    struct rme_seat seat, dead;
    for (int k = 0; k < 8; k++) {
        int wanted = said[k % 2], in_lock = k & 2;
        no_proc = k & 4;
        make_with_data(2);
        die(0, INSIDE);
        EXPECT(rme_attach(&seat, path, 1), 0);
        const int answer = in_lock ? rme_lock_reaping(&seat, 3, lose, &wanted) : rme_reap(path, 0, lose, &wanted);
        EXPECT(answer, wanted == EINTR ? EINTR : ENOTRECOVERABLE);
        pid_t child = fork();
        if (child == 0) {
            EXPECT(rme_attach(&dead, path, 0), 0);
            EXPECT(rme_crashed(&dead), wanted == EINTR);
            EXPECT(rme_reaped(&dead), wanted == EINTR ? 0 : RME_FOUND_INSIDE);
            EXPECT(rme_lock_within(&dead, 0), wanted == EINTR ? EOWNERDEAD : ENOTRECOVERABLE);
            _exit(0);
        }
        expect_exit(child, 0);
        no_proc = false;
    }
}

/* The lease is asked of the file that was opened first, whatever has its name meanwhile: there the process lives. */
static void reaping_of_a_file_that_is_replaced(void)
{
    struct rme_seat living;
    make_with_data(2);
    EXPECT(rme_create(other_path, 2, 4, 1, DATA_BYTES), 0);
    EXPECT(rme_attach(&living, path, 0), 0);
    EXPECT(rme_lock(&living), 0);
    opens_until_replaced = 2;
    EXPECT(rme_reap(path, 0, repair, NULL), EBUSY);
    EXPECT(opens_until_replaced, 0);
    EXPECT(common->repairs, 0);
    EXPECT(rme_unlock(&living), 0);
    EXPECT(rme_detach(&living), 0);
}

static const struct test tests[] = {
    TEST(descriptor_that_is_closed), TEST(descriptor_of_another_file), TEST(descriptor_of_the_file_by_another_open),
    TEST(descriptor_of_another_seat), TEST(detach_of_a_child), TEST(exec_of_another_program), TEST(descriptors_close_on_exec),
    TEST(child_of_a_killed_reaper), TEST(child_that_returns_from_a_repair), TEST(detach_in_a_repair),
    TEST(blocked_by_a_reaper), TEST(reaper_waits_for_nobody), TEST(lease_after_an_error), TEST(reaping_of_a_file_that_is_replaced),
};

int main(int count, char **word) { return run_tests(count, word, tests, sizeof tests / sizeof *tests); }
