/* Faults that the shim once had.
 *
 *     faults_test FOLDER [NAME]
 *
 * It runs all of them, or the one with this name, in FOLDER, and prints for each whether it passed. */
#define _GNU_SOURCE
#include "test.h"

#include <dirent.h>
#include <stdarg.h>
#include <sys/resource.h>
#include <sys/syscall.h>
#include <sys/time.h>

static void write_word(uint64_t place, uint64_t word) /* a data word of the file */
{
    int file = open(path, O_WRONLY);
    EXPECT(pwrite(file, &word, sizeof word, (off_t)(2 * RME_HEADER + 8 * place)), sizeof word);
    close(file);
}

/* ---- a detach that hides a death ---- */

static void detach_after_a_death_inside(void)
{
    struct rme_seat seat, other;
    struct rme_message message;
    make(2, 4);
    die(0, INSIDE);
    for (int i = 0; i < 2; i++) {
        EXPECT(rme_attach(&seat, path, 0), 0);
        EXPECT(seat.crashed, true);
        EXPECT(rme_read_from(&seat, 0, &message, 1), 0);
        EXPECT(rme_detach(&seat), EBUSY);
    }
    EXPECT(rme_attach(&other, path, 1), 0);
    EXPECT(rme_lock_within(&other, 3), ETIMEDOUT);
    EXPECT(rme_attach(&seat, path, 0), 0);
    EXPECT(rme_lock(&seat), EOWNERDEAD);
    EXPECT(rme_consistent(&seat), 0);
    EXPECT(rme_unlock(&seat), 0);
    EXPECT(rme_detach(&seat), 0);
    EXPECT(rme_lock(&other), 0);
}

static void detach_after_a_death_in_line(void)
{
    struct rme_seat seat, holder;
    int found = 0;
    make(2, 4);
    EXPECT(rme_attach(&holder, path, 1), 0);
    EXPECT(rme_lock(&holder), 0);
    die(0, IN_LINE);
    EXPECT(rme_attach(&seat, path, 0), 0);
    EXPECT(rme_recover(&seat, &found), 0);
    EXPECT(found, RME_FOUND_WAITING);
    EXPECT(rme_detach(&seat), EBUSY);
    EXPECT(rme_attach(&seat, path, 0), 0);
    EXPECT(seat.crashed, true);
    EXPECT(rme_lock_within(&seat, 3), ETIMEDOUT);
    EXPECT(rme_withdraw(&seat), 0);
    EXPECT(rme_detach(&seat), 0);
    EXPECT(rme_attach(&seat, path, 0), 0);
    EXPECT(seat.crashed, false);
}

/* ---- a failed attach ---- */

static void detach_after_a_failed_attach(void)
{
    struct rme_seat seat;
    make(2, 4);
    EXPECT(rme_attach(&seat, path, 2), EINVAL);
    int file = open("/dev/null", O_RDONLY);
    EXPECT(rme_detach(&seat), EINVAL);
    EXPECT(syscall(SYS_fcntl, file, F_GETFD), 0);
}

/* ---- creating ---- */

static void create_where_nothing_can_be_written(void)
{
    const struct rlimit none = {4096, 4096};
    make(2, 4);
    EXPECT(rme_create("/proc/self/stat", 2, 4, 1, 0), EEXIST);
    EXPECT(rme_create(folder, 2, 4, 1, 0), EEXIST);
    signal(SIGXFSZ, SIG_IGN);
    EXPECT(setrlimit(RLIMIT_FSIZE, &none), 0);
    EXPECT(rme_create(path, 2, 4, 1, 0), EEXIST);
    EXPECT(rme_create(other_path, 2, 4, 1, 0), EFBIG);
    EXPECT(access(other_path, F_OK), -1);
}

static unsigned names(void)
{
    unsigned count = 0;
    DIR *all = opendir(folder);
    EXPECT(all != NULL, true);
    while (readdir(all))
        count++;
    closedir(all);
    return count - 2;
}

static void create_that_is_killed(void)
{
    unlink(path);
    for (int i = 0; i < 200; i++) {
        pid_t child = fork();
        if (child == 0)
            _exit(rme_create(path, 64, 65536, 8, 0));
        nap(i * 1e-5);
        kill(child, SIGKILL);
        waitpid(child, NULL, 0);
        unlink(path);
        EXPECT(names(), 0);
    }
}

static bool no_unnamed_files, no_proc;

/* In place of the C library's: a file system that has no files without a name; no /proc. */
int access(const char *name, int may)
{
    if (no_proc && strncmp(name, "/proc/", 6) == 0)
        return errno = ENOENT, -1;
    return (int)syscall(SYS_faccessat, AT_FDCWD, name, may);
}

int linkat(int from, const char *name, int to, const char *new_name, int flags)
{
    if (no_proc && strncmp(name, "/proc/", 6) == 0)
        return errno = ENOENT, -1;
    return (int)syscall(SYS_linkat, from, name, to, new_name, flags);
}

int open(const char *name, int flags, ...)
{
    va_list rest;
    va_start(rest, flags);
    unsigned mode = va_arg(rest, unsigned);
    va_end(rest);
    if ((flags & O_TMPFILE) == O_TMPFILE && no_unnamed_files)
        return errno = EOPNOTSUPP, -1;
    if (no_proc && strncmp(name, "/proc/", 6) == 0)
        return errno = ENOENT, -1;
    return (int)syscall(SYS_openat, AT_FDCWD, name, flags, mode);
}

static void create_without_unnamed_files(void)
{
    struct rme_seat seat;
    no_unnamed_files = true;
    make(2, 4);
    EXPECT(names(), 1);
    EXPECT(rme_create(path, 2, 4, 1, 0), EEXIST);
    EXPECT(names(), 1);
    EXPECT(rme_attach(&seat, path, 0), 0);
    EXPECT(rme_lock(&seat), 0);
}

static void create_without_proc(void)
{
    struct rme_seat seat;
    no_proc = true;
    make(2, 4);
    EXPECT(names(), 1);
    EXPECT(rme_create(path, 2, 4, 1, 0), EEXIST);
    EXPECT(names(), 1);
    die(1, INSIDE);
    EXPECT(rme_attach(&seat, path, 0), 0);
    EXPECT(rme_lock_reaping(&seat, 3, NULL, NULL), 0);
    EXPECT(rme_unlock(&seat), 0);
    die(1, INSIDE);
    EXPECT(rme_reap(path, 1, NULL, NULL), 0);
    EXPECT(rme_lock(&seat), 0);
    EXPECT(rme_attach_file(&seat, 0, 0, 0), ENOENT);
}

/* ---- a repair that mends the mailbox itself, or has no time now ---- */

static int mend(struct rme_seat *dead, uint64_t index, void *data, size_t bytes, void *context)
{
    (void)data, (void)bytes;
    EXPECT(rme_consistent(dead), 0);
    return context && index == *(uint64_t *)context ? EINTR : 0;
}

static void repair_that_calls_consistent(void)
{
    struct rme_seat seat;
    struct rme_index status;
    uint64_t reaped = 9;
    make(4, 4);
    die(1, INSIDE), die(2, IN_LINE), die(3, IN_LINE);
    EXPECT(rme_reap_all(path, mend, NULL, &reaped), 0);
    EXPECT(reaped, 3);
    EXPECT(rme_inspect(&seat, path), 0);
    for (uint64_t index = 0; index < 4; index++) {
        EXPECT(rme_index_status(&seat, index, &status), 0);
        EXPECT(status.life == RME_ABSENT && status.found == RME_FOUND_IDLE, true);
    }
    EXPECT(rme_detach(&seat), 0);
    EXPECT(rme_attach(&seat, path, 0), 0);
    die(3, INSIDE);
    EXPECT(rme_lock_reaping(&seat, 3, mend, NULL), 0);
    EXPECT(rme_unlock(&seat), 0);
    die(3, INSIDE);
    EXPECT(rme_reap(path, 3, mend, NULL), 0);
    EXPECT(rme_reap(path, 3, mend, NULL), ESRCH);
    EXPECT(rme_lock(&seat), 0);
}

/* EINTR of a repair leaves the place as it was; the others are reaped all the same. */
static void repair_that_is_interrupted(void)
{
    struct rme_seat seat;
    struct rme_index status;
    uint64_t reaped = 9, index = 1;
    make(4, 4);
    die(1, INSIDE), die(2, IN_LINE);
    EXPECT(rme_reap_all(path, mend, &index, &reaped), EINTR);
    EXPECT(reaped, 1);
    EXPECT(rme_attach(&seat, path, 3), 0);
    EXPECT(rme_lock_reaping(&seat, 3, mend, &index), EINTR);
    EXPECT(rme_index_status(&seat, 1, &status), 0);
    EXPECT(status.life == RME_DEAD && status.found == RME_FOUND_INSIDE && status.reaped == 0, true);
    EXPECT(rme_index_status(&seat, 3, &status), 0);
    EXPECT(status.found, RME_FOUND_WAITING);
    EXPECT(rme_lock_reaping(&seat, 3, mend, NULL), 0);
    EXPECT(rme_index_status(&seat, 1, &status), 0);
    EXPECT(status.life == RME_ABSENT && status.reaped == RME_FOUND_INSIDE, true);
}

/* ---- a signal handler, and cancellation ---- */

static volatile sig_atomic_t refused, let_in;

static void lock_in_a_handler(int number)
{
    (void)number;
    int error = rme_lock(&shared);
    if (error == EBUSY)
        refused = refused + 1;
    else if (error != EDEADLK)
        let_in = let_in + 1;
}

static void lock_in_a_signal_handler(void)
{
    const struct itimerval often = {{0, 50}, {0, 50}}, never = {{0, 0}, {0, 0}};
    make(2, 65536);
    EXPECT(rme_attach(&shared, path, 0), 0);
    EXPECT(rme_lock(&shared), 0);
    signal(SIGALRM, lock_in_a_handler);
    setitimer(ITIMER_REAL, &often, NULL);
    for (uint64_t number = 1; number <= 65536; number++)
        EXPECT(rme_append(&shared, number, &number), 0);
    for (uint64_t i = 0, word; refused == 0 && i < 1000000000; i++)
        EXPECT(rme_get(&shared, 0, &word), 0);
    setitimer(ITIMER_REAL, &never, NULL);
    EXPECT(let_in, 0);
    EXPECT(refused > 0, true);
    EXPECT(rme_unlock(&shared), 0);
}

/* A thread that waits is cancelled: it enters in its turn, leaves, and ends after that. */
static void cancel_a_thread_that_waits(void)
{
    struct rme_seat holder;
    pthread_t thread;
    void *ended = NULL;
    make(2, 4);
    EXPECT(rme_attach(&holder, path, 0), 0);
    EXPECT(rme_attach(&shared, path, 1), 0);
    EXPECT(rme_lock(&holder), 0);
    EXPECT(pthread_create(&thread, NULL, lock_and_unlock, NULL), 0);
    nap(0.3);
    EXPECT(pthread_cancel(thread), 0);
    nap(0.1);
    EXPECT(rme_unlock(&holder), 0);
    EXPECT(pthread_join(thread, &ended), 0);
    EXPECT(ended == PTHREAD_CANCELED, true);
    EXPECT(thread_answer, 0);
    EXPECT(rme_lock_within(&holder, 3), 0);
}

static void *attach_while_cancelled(void *argument)
{
    pthread_cancel(pthread_self());
    thread_answer = rme_attach(&shared, path, 1);
    thread_answer += rme_detach(&shared);
    pthread_testcancel();
    return argument;
}

static void cancel_a_thread_that_attaches(void)
{
    pthread_t thread;
    void *ended = NULL;
    make(2, 4);
    EXPECT(pthread_create(&thread, NULL, attach_while_cancelled, NULL), 0);
    EXPECT(pthread_join(thread, &ended), 0);
    EXPECT(ended == PTHREAD_CANCELED, true);
    EXPECT(thread_answer, 0);
}

/* ---- words of no lawful file ---- */

static void count_above_cap(void)
{
    struct rme_seat seat;
    make(2, 4);
    EXPECT(rme_attach(&seat, path, 0), 0);
    EXPECT(rme_lock(&seat), 0);
    write_word(2, 9);
    EXPECT(rme_append(&seat, 1, &(uint64_t){7}), EBADMSG);
    write_word(2, UINT64_MAX);
    EXPECT(rme_append(&seat, 2, &(uint64_t){7}), EBADMSG);
    static struct rme_message messages[16];
    EXPECT(rme_read_from(&seat, 0, messages, 16), 4);
    EXPECT(rme_read_from(&seat, UINT64_MAX, messages, 16), 0);
}

static void record_past_the_end(void)
{
    struct rme_seat seat;
    make(2, 4);
    die(0, INSIDE);
    write_word(3, 1);          /* armed */
    write_word(4, UINT64_MAX); /* rec_at */
    EXPECT(rme_attach(&seat, path, 0), 0);
    EXPECT(rme_lock(&seat), EOWNERDEAD);
    EXPECT(rme_consistent(&seat), EBADMSG);
}

/* ---- a file that is replaced ---- */

static bool replace;

/* In place of the C library's: replaces the file just before a lease is taken. */
int fcntl(int file, int command, ...)
{
    va_list rest;
    va_start(rest, command);
    void *argument = va_arg(rest, void *);
    va_end(rest);
    if (command == F_OFD_SETLK && replace) {
        replace = false;
        EXPECT(rename(other_path, path), 0);
    }
    return (int)syscall(SYS_fcntl, file, command, argument);
}

static unsigned descriptors(void)
{
    unsigned count = 0;
    for (int file = 0; file < 256; file++)
        count += syscall(SYS_fcntl, file, F_GETFD, 0) >= 0;
    return count;
}

static void attach_to_a_file_that_is_replaced(void)
{
    struct rme_seat seat;
    make(2, 4);
    EXPECT(rme_create(other_path, 2, 4, 1, 0), 0);
    replace = true;
    const unsigned before = descriptors();
    EXPECT(rme_attach(&seat, path, 0), ESTALE);
    EXPECT(descriptors(), before);
    EXPECT(rme_detach(&seat), EINVAL);
    EXPECT(rme_attach(&seat, path, 0), 0);
}

/* ---- waiting ---- */

/* A process that waits for a long holder sleeps, and is woken by the unlock and not by the end of its sleep. */
static void waiting_for_a_long_holder(void)
{
    struct rme_seat holder;
    double late = 0;
    make(2, 4);
    EXPECT(rme_attach(&holder, path, 0), 0);
    for (int i = 0; i < 8; i++) {
        int ends[2], status;
        EXPECT(pipe(ends), 0);
        EXPECT(rme_lock(&holder), 0);
        pid_t child = fork();
        if (child == 0) {
            static struct rme_seat seat;
            struct rusage usage;
            EXPECT(rme_attach(&seat, path, 1), 0);
            EXPECT(rme_lock(&seat), 0);
            double entered = now();
            EXPECT(write(ends[1], &entered, sizeof entered), sizeof entered);
            EXPECT(getrusage(RUSAGE_SELF, &usage), 0);
            EXPECT(usage.ru_nvcsw <= 75, true);
            EXPECT(rme_unlock(&seat), 0);
            EXPECT(rme_detach(&seat), 0);
            _exit(0);
        }
        nap(i == 0 ? 1.02 : 0.32); /* a sleep is 50 ms: its end would come 30 ms late */
        double left = now(), entered;
        EXPECT(rme_unlock(&holder), 0);
        EXPECT(read(ends[0], &entered, sizeof entered), sizeof entered);
        EXPECT(waitpid(child, &status, 0), child);
        EXPECT(status, 0);
        late += entered - left;
        close(ends[0]), close(ends[1]);
    }
    printf("  woken after %.3f ms\n", late / 8 * 1000);
    EXPECT(late / 8 < 0.015, true);
}

static const struct test tests[] = {
    TEST(detach_after_a_death_inside), TEST(detach_after_a_death_in_line), TEST(detach_after_a_failed_attach),
    TEST(create_where_nothing_can_be_written), TEST(create_that_is_killed), TEST(create_without_unnamed_files),
    TEST(create_without_proc), TEST(repair_that_calls_consistent), TEST(repair_that_is_interrupted),
    TEST(lock_in_a_signal_handler), TEST(cancel_a_thread_that_waits), TEST(cancel_a_thread_that_attaches),
    TEST(count_above_cap), TEST(record_past_the_end), TEST(attach_to_a_file_that_is_replaced),
    TEST(waiting_for_a_long_holder),
};

int main(int count, char **word) { return run_tests(count, word, tests, sizeof tests / sizeof *tests); }
