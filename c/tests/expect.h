/* What tests share that name each call they compare, and that trace processes. */
#ifndef EXPECT_H
#define EXPECT_H

#include <errno.h>
#include <signal.h>
#include <stdint.h>
#include <stdio.h>
#include <string.h>
#include <sys/ptrace.h>
#include <sys/wait.h>
#include <unistd.h>

/* The test's own answer to what is wrong. */
_Noreturn void fail(const char *what, int64_t number);

static inline void expect(const char *what, int got, int wanted)
{
    if (got == wanted)
        return;
    fprintf(stderr, "%s: %s: %s, wanted %s\n", program_invocation_short_name, what, strerror(got), strerror(wanted));
    fail(what, got);
}

/* A child that ends by itself, and well. */
static inline void expect_end(const char *what, pid_t child)
{
    int status = 0;
    if (child < 0 || waitpid(child, &status, 0) != child || !WIFEXITED(status) || WEXITSTATUS(status))
        fail(what, status);
}

/* In a child: its parent traces it from here on. */
static inline void be_traced(void)
{
    if (ptrace(PTRACE_TRACEME, 0, NULL, NULL))
        fail("trace", errno);
    kill(getpid(), SIGSTOP);
}

/* Waits until the child has come to be_traced. */
static inline pid_t trace_from_stop(pid_t child, unsigned long options)
{
    int status = 0;
    if (child < 0 || waitpid(child, &status, 0) != child || !WIFSTOPPED(status) || ptrace(PTRACE_SETOPTIONS, child, NULL, options))
        fail("fork", errno);
    return child;
}

#endif
