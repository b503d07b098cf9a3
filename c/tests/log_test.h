/* What the tests of a log's calls share: each test runs in a process of its own, with a log in a folder of its own. */
#ifndef LOG_TEST_H
#define LOG_TEST_H

#include "clock.h"
#include "rme_log.h"

#include <errno.h>
#include <fcntl.h>
#include <signal.h>
#include <stdio.h>
#include <stdlib.h>
#include <string.h>
#include <sys/stat.h>
#include <sys/wait.h>
#include <time.h>
#include <unistd.h>

static char room[3000], folder[3100], other[3100];
static struct rme_log sender, second;
static struct rme_log_reader reader;

static void expect_at(const char *file, int line, const char *what, long got, long wanted)
{
    if (got == wanted)
        return;
    fprintf(stderr, "%s:%d: %s: %ld (%s), wanted %ld\n", file, line, what, got, got > 0 ? rme_log_strerror((int)got) : "", wanted);
    _exit(1);
}
#define EXPECT(call, wanted) expect_at(__FILE__, __LINE__, #call, (long)(call), (long)(wanted))

static const char *name_in(const char *of, const char *name)
{
    static char path[4][4000];
    static unsigned next;
    char *into = path[next++ % 4];
    snprintf(into, sizeof path[0], "%s/%s", of, name);
    return into;
}

static int append(struct rme_log *log, uint64_t number)
{
    return rme_log_append(log, number, (uint64_t[]){100 * log->seat.machine.index + number});
}

/* A log of two senders and segments of two messages, of which sender 0 has sent this many. */
static void make(const char *of, uint64_t sent)
{
    EXPECT(rme_log_create(of, 2, 2, 1), 0);
    EXPECT(rme_log_open(&sender, of, 0, 0), 0);
    for (uint64_t number = 1; number <= sent; number++)
        EXPECT(append(&sender, number), 0);
}

/* Reads all, which have to be sender 0's numbers from `first` to `last`. */
static int read_numbers(struct rme_log_reader *r, uint64_t first, uint64_t last)
{
    struct rme_message m;
    uint64_t count = 0;
    int error;
    while (!(error = rme_log_read(r, &m, 1, &count)) && count == 1) {
        EXPECT(m.number, first);
        EXPECT(m.value[0], 100 * m.sender + m.number);
        first++;
    }
    EXPECT(first, last + 1);
    return error;
}

/* ---- running them ---- */

struct test {
    const char *name;
    void (*test)(void);
    bool mounts;
};
#define TEST(name) {#name, name, false}

static bool run(const struct test *test)
{
    int status = 0;
    snprintf(room, sizeof room, "%.2900s-%s", folder, test->name);
    EXPECT(mkdir(room, 0755), 0);
    fflush(NULL);
    const pid_t child = fork();
    if (child == 0) {
        alarm(60);
        snprintf(folder, sizeof folder, "%s/log", room);
        snprintf(other, sizeof other, "%s/other", room);
        test->test();
        _exit(0);
    }
    waitpid(child, &status, 0);
    printf("%s %s\n", status ? "FAILED" : "passed", test->name);
    return status == 0;
}

/* The words are FOLDER [--no-mount] [TEST]. */
static int run_tests(int count, char **word, const struct test *tests, size_t all)
{
    unsigned failed = 0, passed = 0;
    const bool no_mount = count > 2 && strcmp(word[2], "--no-mount") == 0;
    const char *only = count > 2 + no_mount ? word[2 + no_mount] : NULL;
    if (count < 2)
        return 2;
    snprintf(folder, sizeof folder, "%s/log", word[1]);
    for (size_t i = 0; i < all; i++) {
        if ((only && strcmp(only, tests[i].name) != 0) || (no_mount && tests[i].mounts))
            continue;
        const bool right = run(&tests[i]);
        passed += right;
        failed += !right;
    }
    printf("%u of %u failed\n", failed, failed + passed);
    return failed || !passed;
}

#endif
