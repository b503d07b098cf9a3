/* Every call on files that are not of the library, on words that break its rules, and with arguments that make no sense.
 *
 *     hostile_test FOLDER ROUNDS SEED [--no-mount]
 *
 * Each case runs in a process of its own. It has to end by itself, each call with an answer that rme.h names for it, and,
 * compiled with the sanitizers of addresses and undefined behaviour, without a report. The file is mapped between two pages that
 * may not be touched (linked with --wrap=mmap), and its words end where its last page ends, so that an access
 * beside it ends the process. ROUNDS files get drawn words. The cases of a full and of a read-only disk mount a small file
 * system in FOLDER, seen by themselves alone; --no-mount leaves them out. */
#define _GNU_SOURCE
#include "hostile.h"

#include <errno.h>
#include <fcntl.h>
#include <inttypes.h>
#include <pthread.h>
#include <signal.h>
#include <stdio.h>
#include <stdlib.h>
#include <string.h>
#include <sys/stat.h>
#include <sys/wait.h>
#include <unistd.h>

static unsigned cases, failed;

static const uint64_t odd[] = {0, 1, 2, UINT64_C(1) << 32, UINT64_C(1) << 63, UINT64_MAX - 4095, UINT64_MAX};
enum { ODD = sizeof odd / sizeof *odd };

static void go(const char *name, void (*body)(uint64_t), uint64_t argument)
{
    failed += !run_case(name, body, argument, 0);
    cases++;
}

static bool is_lawful(void)
{
    static uint64_t copy[3 * PROCS + 512];
    struct rme_seat seat;
    expect("inspect", rme_inspect(&seat, path), 0);
    const uint64_t words = rme_copy_words(&seat, copy, 3 * PROCS + 512);
    const uint64_t rule = rme_content_rule(copy, words, PROCS, CAP, WIDTH, RME_LIMIT);
    expect("detach", rme_detach(&seat), 0);
    return rule == RME_LAWFUL;
}

/* ---- the header and the length ---- */

enum { FIELDS = 9 };

/* Each field of the header in turn gets a value that is not its own. */
static void field(uint64_t which)
{
    const uint64_t at = which / (ODD + 2), kind = which % (ODD + 2);
    struct rme_header header;
    struct rme_seat seat;
    new_file(64);
    const int file = open(path, O_RDONLY | O_CLOEXEC);
    if (file < 0 || read(file, &header, sizeof header) != (ssize_t)sizeof header)
        fail("read", errno);
    close(file);
    const uint64_t own = ((const uint64_t *)&header)[at];
    const uint64_t value = kind < ODD ? odd[kind] : kind == ODD ? own - 1 : own + 1;
    if (value == own)
        return;
    patch(8 * at, value);
    const int answer = rme_attach(&seat, path, 0), looked = rme_inspect(&seat, path);
    /* Data of another length of the same number of lines fit the file as well. */
    const int wanted = at == 0 ? EBADMSG : EPROTO;
    if (at != 8 || value > 128) {
        expect("attach", answer, wanted);
        expect("inspect", looked, wanted);
        expect("reap", rme_reap(path, 1, NULL, NULL), wanted);
    }
    every_call();
}

static void marks(uint64_t which)
{
    new_file(0);
    for (uint64_t index = 0; index < 64; index++)
        patch(8 * (FIELDS + index), odd[which]);
    every_call();
}

static void sleepers(uint64_t which)
{
    new_file(0);
    for (uint64_t index = 0; index < 64; index++)
        patch(RME_HEADER + 64 * index + 24, odd[which]);
    every_call();
}

static const uint64_t lengths[] = {0, 1, 7, 8, 71, 72, 583, 584, 4095, 4096, 4097, 8191, 8192, 8200, 12280, 12287, 12289, 12352, 16384};

static void cut_short(uint64_t which)
{
    struct rme_seat seat;
    new_file(0);
    if (length_of() != 12288)
        fail("the words do not end where a page does", (int64_t)length_of());
    cut(lengths[which]);
    expect_one_of("attach", rme_attach(&seat, path, 0), (const int[]){EBADMSG, EPROTO, 0});
    if (rme_attach(&seat, path, 0) == 0 || rme_inspect(&seat, path) == 0 || rme_reap(path, 1, NULL, NULL) == 0)
        fail("a file of another length is taken", (int64_t)lengths[which]);
    every_call();
}

/* ---- a file that is shortened while it is mapped ---- */

/* rme.h names SIGBUS for it; an answer that it names is right as well. */
static void shortened(uint64_t which)
{
    static const uint64_t left[] = {0, 4096, 8192};
    struct rme_seat seat;
    signal(SIGBUS, SIG_DFL);
    new_file(0);
    expect("attach", rme_attach(&seat, path, 0), 0);
    if (which >= 3)
        expect("lock", rme_lock(&seat), 0);
    cut(left[which % 3]);
    every_seat_call(&seat);
    rme_detach(&seat);
}

/* ---- words that break the rules ---- */

struct breach {
    uint64_t rule;
    struct { uint64_t place, word; } edits[4];
};

enum { DATA = 3 * PROCS, LAST = DATA + 10 + WIDTH, ENTRY = LAST + PROCS };

/* The file has two messages of index 1. An edit of place 0 and word 0 is none. */
static const struct breach breaches[] = {
    {5, {{0, 2}}}, {5, {{1, RME_LIMIT + 1}}}, {5, {{2, 2}}}, {5, {{0, 1}, {2, 1}}}, {5, {{0, UINT64_MAX}}},
    {6, {{1, 1}, {2, 1}, {4, 2}, {5, 1}}}, {6, {{1, 5}, {2, 1}, {4, 2}}}, {6, {{1, RME_LIMIT}, {2, 1}, {7, 1}}},
    {7, {{DATA, 2}}}, {7, {{DATA + 1, 2}}}, {7, {{DATA + 2, CAP + 1}}}, {7, {{DATA + 3, 2}}}, {7, {{DATA + 1, 1}, {DATA + 3, 1}}},
    {7, {{DATA + 2, UINT64_MAX}}}, {7, {{DATA, UINT64_MAX}}}, {7, {{DATA + 2, UINT64_C(1) << 63}}},
    {8, {{DATA + 2, 1}}}, {8, {{DATA + 2, 3}}}, {8, {{LAST + 1, 7}}}, {8, {{ENTRY, PROCS}}}, {8, {{ENTRY + 1, 2}}},
    {8, {{ENTRY, UINT64_MAX}}}, {8, {{LAST, UINT64_MAX}}}, {8, {{LAST, UINT64_MAX - 1}}}, {8, {{DATA + 2, CAP}}},
    {9, {{DATA + 3, 1}}}, {9, {{1, 1}, {2, 1}, {DATA + 3, 1}, {DATA + 4, CAP}}},
    {9, {{1, 1}, {2, 1}, {DATA + 3, 1}, {DATA + 4, UINT64_MAX}}}, {9, {{1, 1}, {2, 1}, {DATA + 3, 1}, {DATA + 5, UINT64_MAX}}},
    {9, {{DATA, 1}, {DATA + 3, 1}, {DATA + 4, CAP - 1}}},
};

static void breach(uint64_t which)
{
    static uint64_t copy[3 * PROCS + 512];
    const struct breach *broken = &breaches[which];
    struct rme_seat seat;
    new_file(0);
    for (unsigned k = 0; k < 4; k++)
        if (broken->edits[k].place || broken->edits[k].word)
            patch(offset_of(broken->edits[k].place), broken->edits[k].word);
    expect("inspect", rme_inspect(&seat, path), 0);
    const uint64_t words = rme_copy_words(&seat, copy, 3 * PROCS + 512);
    const uint64_t rule = rme_content_rule(copy, words, PROCS, CAP, WIDTH, RME_LIMIT);
    if (rule != broken->rule)
        fail("the words break another rule", (int64_t)rule);
    expect("detach", rme_detach(&seat), 0);
    every_call();
}

/* Drawn words in a drawn number of places. */
static void drawn(uint64_t seed)
{
    static const uint64_t likely[] = {0, 1, 2, 3, CAP - 1, CAP, CAP + 1, RME_LIMIT, RME_LIMIT + 1, UINT64_C(1) << 63, UINT64_MAX};
    srand48((long)seed);
    new_file(0);
    const long edits = 1 + lrand48() % 12;
    for (long k = 0; k < edits; k++) {
        const uint64_t low = (uint64_t)(lrand48() % (k % 3 ? 40 : 3 * PROCS + 512));
        const uint64_t wild = (uint64_t)mrand48() << 32 ^ (uint64_t)mrand48();
        const long kind = lrand48() % 12;
        patch(offset_of(low), kind < 11 ? likely[kind] : wild);
    }
    for (uint64_t index = 0; index < PROCS; index++)
        patch(8 * (FIELDS + index), (uint64_t)(lrand48() % 3 ? RME_ATTACHED : 0));
    every_call();
}

/* ---- arguments ---- */

static void unattached(uint64_t which)
{
    struct rme_seat seat;
    memset(&seat, 0, sizeof seat);
    new_file(0);
    if (which == 1)
        expect("attach of no index", rme_attach(&seat, path, PROCS), EINVAL);
    if (which == 2) {
        expect("attach", rme_attach(&seat, path, 0), 0);
        expect("detach", rme_detach(&seat), 0);
    }
    const int file = dup(2), next = dup(2);
    close(file);
    every_seat_call(&seat);
    expect("detach of a seat that is not attached", rme_detach(&seat), EINVAL);
    expect("lock of a seat that is not attached", rme_lock(&seat), EINVAL);
    expect("lock of a seat that is not attached", rme_lock_reaping(&seat, 0, NULL, NULL), EINVAL);
    if (fcntl(next, F_GETFD) < 0 || fcntl(2, F_GETFD) < 0)
        fail("a detach has closed a file that is not its own", next);
    if (rme_read_from(&seat, 0, NULL, 0) || rme_data(&seat, NULL))
        fail("a seat that is not attached has messages or data", 0);
}

static void no_seat(uint64_t which)
{
    struct rme_seat seat;
    uint64_t word = 0;
    (void)which;
    new_file(0);
    every_seat_call(NULL);
    expect("detach of no seat", rme_detach(NULL), EINVAL);
    expect("lock of no seat", rme_lock_reaping(NULL, 1, NULL, NULL), EINVAL);
    expect("attach of no seat", rme_attach(NULL, path, 0), EINVAL);
    expect("inspect of no seat", rme_inspect(NULL, path), EINVAL);
    expect("attach of no path", rme_attach(&seat, NULL, 0), EINVAL);
    expect("inspect of no path", rme_inspect(&seat, NULL), EINVAL);
    expect("create of no path", rme_create(NULL, 1, 1, 1, 0), EINVAL);
    expect("reap of no path", rme_reap(NULL, 0, NULL, NULL), EINVAL);
    expect("reap_all of no path", rme_reap_all(NULL, NULL, NULL, &word), EINVAL);
    if (!rme_strerror(0) || !rme_strerror(-1) || !rme_strerror(EBADMSG) || !rme_version() || rme_seat_size() != sizeof seat)
        fail("what a program asks of the library", 0);
}

/* Each size of a create in turn. */
static void sizes(uint64_t which)
{
    uint64_t size[4] = {PROCS, 4, 1, 0};
    struct rme_seat seat;
    size[which / ODD] = which % ODD == 3 ? 65537 : odd[which % ODD];
    unlink(path);
    const int answer = rme_create(path, size[0], size[1], size[2], size[3]);
    expect_one_of("create", answer, (const int[]){EINVAL, EFBIG, ENOSPC, 0});
    const bool right = size[0] >= 1 && size[0] <= 64 && size[1] >= 1 && size[1] <= 65536 && size[2] >= 1 && size[2] <= 8;
    if (right && size[3] < UINT64_C(1) << 32)
        expect("create of sizes in range", answer, 0);
    if (!right)
        expect("create of sizes out of range", answer, EINVAL);
    if (answer == 0) {
        size_t bytes = 1;
        expect("attach", rme_attach(&seat, path, 0), 0);
        if (!rme_data(&seat, &bytes) != !size[3] || bytes != size[3])
            fail("another length of the data", (int64_t)bytes);
        expect("detach", rme_detach(&seat), 0);
    }
    unlink(path);
    if (entries_of(folder) != 0)
        fail("a create leaves another file", (int64_t)entries_of(folder));
}

/* ---- names ---- */

static void names(uint64_t which)
{
    static const char *const other[] = {"/dev/null", "/dev/zero", "/proc/self/mem", "/", "", "no/such/file"};
    enum { OTHER = sizeof other / sizeof *other };
    char name[sizeof path];
    if (which < OTHER) {
        snprintf(path, sizeof path, "%s", other[which]);
    } else {
        snprintf(name, sizeof name, "%s", path);
        unlink(path);
        if (which == OTHER && mkdir(path, 0700))
            fail("mkdir", errno);
        if (which == OTHER + 1 && mkfifo(path, 0600))
            fail("mkfifo", errno);
        if (which == OTHER + 2 && symlink("nothing", path))
            fail("symlink", errno);
        if (which == OTHER + 3) {
            memset(path, 'x', sizeof path - 1);
            path[sizeof path - 1] = 0;
        }
    }
    struct rme_seat seat;
    const int attached = rme_attach(&seat, path, 0), looked = rme_inspect(&seat, path);
    if (attached == 0 || looked == 0)
        fail("a name of no file of this kind is taken", (int64_t)which);
    const int created = rme_create(path, PROCS, CAP, WIDTH, 0);
    const bool there = which < 4 || (which >= OTHER && which < OTHER + 3);
    if (there)
        expect("create where a name is", created, EEXIST);
    else
        expect_one_of("create", created, (const int[]){ENOENT, ENAMETOOLONG, 0});
    expect_one_of("reap", rme_reap(path, 0, NULL, NULL), (const int[]){attached, EINVAL, 0});
    if (which >= OTHER) {
        unlink(name);
        rmdir(name);
    }
}

/* A link that leads to the file is its name too. */
static void linked(uint64_t which)
{
    char target[sizeof path];
    (void)which;
    new_file(0);
    snprintf(target, sizeof target, "%s", path);
    snprintf(path + strlen(path), 8, ".link");
    if (symlink(target, path))
        fail("symlink", errno);
    every_call();
    unlink(path);
}

/* ---- misuse of a seat ---- */

static struct rme_seat shared_seat;
static _Atomic bool over;

static void *hammer(void *seed)
{
    struct rme_message read[8];
    for (uint64_t k = *(const uint64_t *)seed; !over; k = k * 6364136223846793005u + 1442695040888963407u) {
        uint64_t word = 0;
        switch (k >> 60) {
        case 0: case 1: case 2: case 3: rme_lock_within(&shared_seat, 1); break;
        case 4: case 5: rme_unlock(&shared_seat); break;
        case 6: case 7: rme_append(&shared_seat, 1 + (k >> 40) % 100, &k); break;
        case 8: rme_consistent(&shared_seat); break;
        case 9: rme_withdraw(&shared_seat); break;
        case 10: rme_recover(&shared_seat, NULL); break;
        case 11: rme_get(&shared_seat, 0, &word); break;
        case 12: rme_put(&shared_seat, 0, k); break;
        default: rme_read_from(&shared_seat, 0, read, 8);
        }
    }
    return NULL;
}

/* Two threads use one seat, which rme.h forbids. The file stays whole, and the others go on. */
static void two_threads(uint64_t which)
{
    static uint64_t seeds[2] = {1, 2};
    pthread_t thread[2];
    struct rme_seat seat;
    (void)which;
    new_file(0);
    expect("attach", rme_attach(&shared_seat, path, 0), 0);
    for (int k = 0; k < 2; k++)
        if (pthread_create(&thread[k], NULL, hammer, &seeds[k]))
            fail("thread", errno);
    usleep(500000);
    over = true;
    for (int k = 0; k < 2; k++)
        pthread_join(thread[k], NULL);
    if (!is_lawful())
        fail("two threads on a seat have broken the words", 0);
    rme_detach(&shared_seat);
    expect_one_of("reap", rme_reap(path, 0, NULL, NULL), (const int[]){ESRCH, 0});
    expect("attach of another", rme_attach(&seat, path, 1), 0);
    expect("lock of another", rme_lock_within(&seat, 1000), 0);
    expect("append of another", rme_append(&seat, 3, &(uint64_t){103}), 0);
    expect("unlock of another", rme_unlock(&seat), 0);
    expect("detach of another", rme_detach(&seat), 0);
}

/* The child has no seat; the index is taken until both have ended. */
static void forked(uint64_t which)
{
    struct rme_seat seat, other;
    int status = 0, ready[2];
    new_file(0);
    expect("attach", rme_attach(&seat, path, 0), 0);
    if (which)
        expect("lock", rme_lock(&seat), 0);
    if (pipe(ready))
        fail("pipe", errno);
    const pid_t child = fork();
    if (child == 0) {
        expect("lock in a child", rme_lock_within(&seat, 0), EINVAL);
        expect("unlock in a child", rme_unlock(&seat), EINVAL);
        expect("append in a child", rme_append(&seat, 1, &(uint64_t){1}), EINVAL);
        every_seat_call(&seat);
        if (write(ready[1], "x", 1) != 1)
            fail("write", errno);
        usleep(100000);
        expect("detach in a child", rme_detach(&seat), EINVAL);
        _exit(0);
    }
    if (read(ready[0], &(char){0}, 1) != 1)
        fail("read", errno);
    expect("a second process at the index", rme_attach(&other, path, 0), EBUSY);
    if (!which)
        expect("lock", rme_lock(&seat), 0);
    expect("append", rme_append(&seat, 1, &(uint64_t){1}), 0);
    expect("unlock", rme_unlock(&seat), 0);
    expect("detach", rme_detach(&seat), 0);
    expect("a child has the index still", rme_attach(&other, path, 0), EBUSY);
    if (waitpid(child, &status, 0) != child || status)
        fail("the child has failed", status);
    expect("attach once the child has ended", rme_attach(&other, path, 0), 0);
    if (rme_crashed(&other))
        fail("an orderly detach counts as a crash", 0);
    expect("detach", rme_detach(&other), 0);
}

/* ---- all of them ---- */

static void of_files(void)
{
    for (uint64_t k = 0; k < FIELDS * (ODD + 2); k++)
        go("a field of the header", field, k);
    for (uint64_t k = 0; k < ODD; k++) {
        go("marks", marks, k);
        go("sleepers", sleepers, k);
    }
    for (uint64_t k = 0; k < sizeof lengths / sizeof *lengths; k++)
        go("a file of another length", cut_short, k);
    for (uint64_t k = 0; k < 6; k++) {
        failed += !run_case("a file that is shortened while it is mapped", shortened, k, SIGBUS);
        cases++;
    }
    for (uint64_t k = 0; k < sizeof breaches / sizeof *breaches; k++)
        go("words that break a rule", breach, k);
    go("a link to the file", linked, 0);
    unlink(path);
    for (uint64_t k = 0; k < 10; k++)
        go("another name", names, k);
}

static void of_arguments(void)
{
    for (uint64_t k = 0; k < 3; k++)
        go("a seat that is not attached", unattached, k);
    go("null pointers", no_seat, 0);
    unlink(path);
    for (uint64_t k = 0; k < 4 * ODD; k++)
        go("sizes", sizes, k);
    go("two threads on a seat", two_threads, 0);
    go("a fork", forked, 0);
    go("a fork inside", forked, 1);
}

int main(int argc, char **argv)
{
    if (argc < 4)
        return 2;
    folder = argv[1];
    snprintf(path, sizeof path, "%s/words", folder);
    const uint64_t rounds = strtoull(argv[2], NULL, 10), seed = strtoull(argv[3], NULL, 10);
    of_files();
    of_arguments();
    for (uint64_t k = 0; k < rounds; k++)
        go("drawn words", drawn, seed + k);
    unlink(path);
    go("a limit of files", file_too_big, 0);
    go("no descriptors", no_descriptors, 0);
    go("a file that may only be read", no_permission, 0);
    unlink(path);
    if (argc < 5) {
        go("a full disk", full_disk, 0);
        go("a read-only disk", read_only, 0);
        go("a copy with holes, and room for them", copy_with_holes, 0);
        go("a copy with holes on a full disk", copy_with_holes, 1);
    }
    printf("hostile_test cases %u failed %u%s\n", cases, failed, argc < 5 ? "" : ", without a full and a read-only disk");
    return failed != 0;
}
