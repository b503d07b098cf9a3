#define _GNU_SOURCE
#include "hostile.h"

#include <dirent.h>
#include <errno.h>
#include <fcntl.h>
#include <inttypes.h>
#include <signal.h>
#include <stdio.h>
#include <stdlib.h>
#include <string.h>
#include <sys/mman.h>
#include <sys/stat.h>
#include <sys/wait.h>
#include <unistd.h>

char path[4096];
const char *folder;
static const char *running = "";

/* ---- processes ---- */

void fail(const char *what, int64_t number)
{
    fprintf(stderr, "hostile_test: %s: %s: %" PRId64 "\n", running, what, number);
    _exit(1);
}

void expect(const char *what, int got, int wanted)
{
    if (got == wanted)
        return;
    fprintf(stderr, "hostile_test: %s: %s: %s, wanted %s\n", running, what, strerror(got), strerror(wanted));
    _exit(1);
}

void expect_one_of(const char *what, int got, const int *errors)
{
    while (*errors && *errors != got)
        errors++;
    if (got == *errors)
        return;
    fprintf(stderr, "hostile_test: %s: %s: %s, which rme.h does not name\n", running, what, strerror(got));
    _exit(1);
}

bool run_case(const char *name, void (*body)(uint64_t), uint64_t argument, int allowed_signal)
{
    int status;
    fflush(NULL);
    const pid_t child = fork();
    if (child == 0) {
        running = name;
        alarm(30);
        body(argument);
        _exit(0);
    }
    if (child < 0 || waitpid(child, &status, 0) != child)
        fail("fork", errno);
    if (status == 0 || (allowed_signal && WIFSIGNALED(status) && WTERMSIG(status) == allowed_signal))
        return true;
    fprintf(stderr, "hostile_test: %s, case %" PRIu64 ": %s %d\n", name, argument,
            WIFSIGNALED(status) ? "ended by signal" : "ended with status", WIFSIGNALED(status) ? WTERMSIG(status) : WEXITSTATUS(status));
    return false;
}

/* ---- files ---- */

uint64_t offset_of(uint64_t place)
{
    return place < 3 * PROCS ? RME_HEADER + 64 * (place / 3) + 8 * (place % 3) : 2 * RME_HEADER + 8 * (place - 3 * PROCS);
}

void new_file(uint64_t data_bytes)
{
    struct rme_seat seat;
    unlink(path);
    expect("create", rme_create(path, PROCS, CAP, WIDTH, data_bytes), 0);
    expect("attach", rme_attach(&seat, path, 1), 0);
    expect("lock", rme_lock(&seat), 0);
    for (uint64_t number = 1; number <= 2; number++)
        expect("append", rme_append(&seat, number, &(uint64_t){100 + number}), 0);
    expect("unlock", rme_unlock(&seat), 0);
    expect("detach", rme_detach(&seat), 0);
}

void patch(uint64_t offset, uint64_t word)
{
    const int file = open(path, O_WRONLY | O_CLOEXEC);
    if (file < 0 || pwrite(file, &word, sizeof word, (off_t)offset) != sizeof word)
        fail("patch", errno);
    close(file);
}

void cut(uint64_t length)
{
    if (truncate(path, (off_t)length))
        fail("truncate", errno);
}

uint64_t length_of(void)
{
    struct stat status;
    if (stat(path, &status))
        fail("stat", errno);
    return (uint64_t)status.st_size;
}

unsigned entries_of(const char *name)
{
    DIR *opened = opendir(name);
    unsigned found = 0;
    if (!opened)
        fail("opendir", errno);
    for (const struct dirent *entry; (entry = readdir(opened));)
        found += entry->d_name[0] != '.';
    closedir(opened);
    return found;
}

/* ---- the file between two pages that may not be touched; they stay when it is unmapped ---- */

void *__real_mmap(void *, size_t, int, int, int, off_t);
void *__wrap_mmap(void *, size_t, int, int, int, off_t);

enum { PAGE = 4096 };

void *__wrap_mmap(void *wanted, size_t length, int may, int kind, int file, off_t offset)
{
    const size_t pages = (length + PAGE - 1) / PAGE * PAGE;
    if (wanted || file < 0)
        return __real_mmap(wanted, length, may, kind, file, offset);
    char *room = __real_mmap(NULL, pages + 2 * PAGE, PROT_NONE, MAP_PRIVATE | MAP_ANONYMOUS, -1, 0);
    if (room == MAP_FAILED)
        return room;
    return __real_mmap(room + PAGE, length, may, kind | MAP_FIXED, file, offset);
}


/* ---- every call ---- */

#define SEAT_ERRORS EINVAL, EBUSY, EBADMSG
#define FILE_ERRORS EBUSY, EINVAL, EBADMSG, EPROTO, ESTALE, ENOENT, EISDIR, EACCES, EROFS, ESPIPE, ENXIO, ENODEV, ELOOP, ENOTDIR, ENAMETOOLONG

static const int of_seat[] = {SEAT_ERRORS, 0};
static const int of_file[] = {FILE_ERRORS, 0};
static const int of_reap[] = {FILE_ERRORS, ESRCH, ENOTRECOVERABLE, 0};
static const int of_lock[] = {SEAT_ERRORS, EOWNERDEAD, ENOTRECOVERABLE, EDEADLK, EOVERFLOW, ETIMEDOUT, 0};
static const int of_unlock[] = {SEAT_ERRORS, EPERM, 0};
static const int of_consistent[] = {SEAT_ERRORS, EPERM, ENOTRECOVERABLE, 0};
static const int of_recover[] = {SEAT_ERRORS, EDEADLK, 0};
static const int of_append[] = {SEAT_ERRORS, EALREADY, ENOSPC, EPIPE, EPERM, EOWNERDEAD, 0};
static const int of_close[] = {SEAT_ERRORS, EALREADY, EPERM, EOWNERDEAD, 0};
static const uint64_t odd[] = {0, 1, 2, 3, 4, CAP - 1, CAP, CAP + 1, UINT64_C(1) << 62, UINT64_C(1) << 63, UINT64_MAX - 1, UINT64_MAX};
enum { ODD = sizeof odd / sizeof *odd };

static bool is_there(const struct rme_seat *seat, uint64_t sender, uint64_t number, uint64_t value)
{
    static struct rme_message read[CAP];
    const uint64_t got = rme_read_from(seat, 0, read, CAP);
    for (uint64_t k = 0; k < got; k++)
        if (read[k].sender == sender && read[k].number == number && read[k].value[0] == value)
            return true;
    return false;
}

static void appends(struct rme_seat *seat)
{
    for (unsigned k = 0; k < ODD; k++) {
        const uint64_t value = 7 + odd[k];
        const int answer = rme_append(seat, odd[k], &value);
        expect_one_of("append", answer, of_append);
        if (answer == 0 && !is_there(seat, seat->machine.index, odd[k], value))
            fail("an append answers 0 and nothing is there", (int64_t)odd[k]);
    }
    expect("append of no value", rme_append(seat, 1, NULL), EINVAL);
}

static void reads(const struct rme_seat *seat)
{
    static struct rme_message read[CAP + 1];
    static uint64_t copy[3 * PROCS + 512];
    const uint64_t words = 3 * PROCS + 512;
    for (unsigned k = 0; k < ODD; k++) {
        const uint64_t got = rme_read_from(seat, odd[k], read, CAP);
        if (got > CAP || (odd[k] >= CAP && got > 0))
            fail("messages past the last place are read", (int64_t)got);
        if (rme_read_from(seat, odd[k], read, 1) > 1 || rme_read_from(seat, odd[k], read, 0) || rme_read_from(seat, odd[k], NULL, 1))
            fail("more messages are read than there is room for", 0);
    }
    if (rme_read_from(seat, 0, read, UINT64_MAX) > CAP)
        fail("more messages are read than there are places", 0);
    const uint64_t copied = rme_copy_words(seat, copy, words);
    if ((copied && copied != words) || rme_copy_words(seat, copy, 1) > 1 || rme_copy_words(seat, copy, 0) || rme_copy_words(seat, NULL, 1))
        fail("words are copied", (int64_t)copied);
    if (copied && rme_content_rule(copy, copied, PROCS, CAP, WIDTH, RME_LIMIT) > RME_NO_MEMORY)
        fail("rule", 0);
}

static void looks(struct rme_seat *seat)
{
    struct rme_file whole;
    struct rme_index one;
    uint64_t index = 0, word = 0;
    size_t bytes = 1;
    bool alive = false;
    expect_one_of("file_status", rme_file_status(seat, &whole), of_seat);
    expect("file_status of nothing", rme_file_status(seat, NULL), EINVAL);
    for (unsigned k = 0; k < ODD; k++) {
        const int answer = rme_index_status(seat, odd[k], &one);
        expect_one_of("index_status", answer, of_seat);
        if (answer == 0 && odd[k] >= PROCS)
            fail("index_status of an index that is not there", (int64_t)odd[k]);
        expect_one_of("get", rme_get(seat, odd[k], &word), of_unlock);
        expect_one_of("put", rme_put(seat, odd[k], odd[ODD - 1 - k]), of_unlock);
    }
    expect("get into nothing", rme_get(seat, 0, NULL), EINVAL);
    expect_one_of("blocker", rme_blocker(seat, &index, &alive), of_seat);
    expect_one_of("blocker", rme_blocker(seat, NULL, NULL), of_seat);
    if (rme_data(seat, &bytes) ? bytes == 0 : bytes != 0)
        fail("data of no length, or no data of a length", (int64_t)bytes);
    rme_data(seat, NULL);
    rme_crashed(seat);
    if (rme_reaped(seat) && (rme_reaped(seat) < RME_FOUND_IDLE || rme_reaped(seat) > RME_FOUND_INSIDE))
        fail("reaped", rme_reaped(seat));
}

/* One after the other as no program would, so that each meets each state of the seat. */
void every_seat_call(struct rme_seat *seat)
{
    for (int turn = 0; turn < 3; turn++) {
        int found = 0;
        looks(seat);
        reads(seat);
        expect_one_of("unlock", rme_unlock(seat), of_unlock);
        expect_one_of("consistent", rme_consistent(seat), of_consistent);
        expect_one_of("withdraw", rme_withdraw(seat), of_seat);
        if (turn == 1)
            expect_one_of("recover", rme_recover(seat, &found), of_recover);
        expect_one_of("lock", rme_lock_within(seat, (uint64_t)turn), of_lock);
        looks(seat);
        appends(seat);
        if (turn > 0)
            expect_one_of("consistent", rme_consistent(seat), of_consistent);
        appends(seat);
        expect_one_of("lock again", rme_lock_within(seat, 0), of_lock);
        if (turn == 2)
            expect_one_of("close", rme_close(seat), of_close);
        reads(seat);
        expect_one_of("withdraw", rme_withdraw(seat), of_seat);
        expect_one_of("unlock", rme_unlock(seat), of_unlock);
    }
}

static int repair(struct rme_seat *dead, uint64_t index, void *data, size_t bytes, void *context)
{
    (void)data, (void)bytes, (void)context;
    reads(dead);
    return index == 1;
}

void every_call(void)
{
    struct rme_seat seat;
    uint64_t reaped = 0;
    for (unsigned k = 0; k < ODD; k++) {
        const int answer = rme_attach(&seat, path, odd[k]);
        expect_one_of("attach", answer, of_file);
        if (answer == 0 && odd[k] >= PROCS)
            fail("attach of an index that is not there", (int64_t)odd[k]);
        every_seat_call(&seat);
        expect_one_of("detach", rme_detach(&seat), of_seat);
        every_seat_call(&seat);
    }
    expect_one_of("inspect", rme_inspect(&seat, path), of_file);
    every_seat_call(&seat);
    expect_one_of("detach", rme_detach(&seat), of_seat);
    for (unsigned k = 0; k < ODD; k++)
        expect_one_of("reap", rme_reap(path, odd[k], k % 2 ? repair : NULL, NULL), of_reap);
    expect_one_of("reap_all", rme_reap_all(path, repair, NULL, &reaped), of_reap);
    expect_one_of("reap_all", rme_reap_all(path, NULL, NULL, NULL), of_reap);
    expect("create where a file is", rme_create(path, PROCS, CAP, WIDTH, 0), EEXIST);
    expect_one_of("attach and wait for a reaper", rme_attach_within(&seat, path, 0, 1), (const int[]){FILE_ERRORS, ETIMEDOUT, 0});
    expect_one_of("detach", rme_detach(&seat), of_seat);
}
