/* What the tests of the calls share: each test runs in a process of its own, in a folder. */
#ifndef RME_TEST_H
#define RME_TEST_H

#include "clock.h"
#include "rme.h"

#include <errno.h>
#include <fcntl.h>
#include <pthread.h>
#include <signal.h>
#include <stdio.h>
#include <stdlib.h>
#include <string.h>
#include <sys/wait.h>
#include <time.h>
#include <unistd.h>

static char folder[3000], path[4000], other_path[4000];

static void expect_at(int line, const char *what, long got, long wanted)
{
    if (got == wanted)
        return;
    fprintf(stderr, "%s:%d: %s: %ld (%s), wanted %ld\n", __BASE_FILE__, line, what, got, got > 0 ? strerror((int)got) : "", wanted);
    _exit(1);
}
#define EXPECT(call, wanted) expect_at(__LINE__, #call, (long)(call), (long)(wanted))

static inline void make(uint64_t procs, uint64_t cap)
{
    unlink(path);
    EXPECT(rme_create(path, procs, cap, 1, 0), 0);
}

/* A process of this index that gets so far and is killed. */
enum stand { INSIDE, IN_LINE };
static inline void die(uint64_t index, enum stand stand)
{
    pid_t child = fork();
    if (child == 0) {
        static struct rme_seat seat;
        EXPECT(rme_attach(&seat, path, index), 0);
        EXPECT(rme_lock_within(&seat, 3), stand == INSIDE ? 0 : ETIMEDOUT);
        kill(getpid(), SIGKILL);
    }
    int status = 0;
    waitpid(child, &status, 0);
    EXPECT(WIFSIGNALED(status), true);
}

/* Locks and unlocks a seat that is shared, in a thread. */
static struct rme_seat shared;
static volatile int thread_answer = -1;

static inline void *lock_and_unlock(void *argument)
{
    thread_answer = rme_lock(&shared);
    if (thread_answer == 0)
        rme_unlock(&shared);
    pthread_testcancel();
    return argument;
}

struct test {
    const char *name;
    void (*test)(void);
};
#define TEST(name) {#name, name}

static int run_tests(int count, char **word, const struct test *tests, size_t all)
{
    unsigned failed = 0, run = 0;
    if (count < 2)
        return 2;
    snprintf(folder, sizeof folder, "%s", word[1]);
    snprintf(path, sizeof path, "%s/file", folder);
    snprintf(other_path, sizeof other_path, "%s/other", folder);
    for (size_t i = 0; i < all; i++) {
        if (count > 2 && strcmp(word[2], tests[i].name) != 0)
            continue;
        fflush(NULL);
        int status = 0;
        pid_t child = fork();
        if (child == 0) {
            alarm(20);
            tests[i].test();
            fflush(NULL);
            _exit(0);
        }
        waitpid(child, &status, 0);
        printf("%s %s\n", status ? "FAILED" : "passed", tests[i].name);
        unlink(path), unlink(other_path);
        failed += status != 0;
        run++;
    }
    printf("%u of %u failed\n", failed, run);
    return failed || !run;
}

#endif
