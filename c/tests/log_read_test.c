/* What rme_log.h says of readers: log_read_test FOLDER [TEST]. */
#define _GNU_SOURCE
#include "log_test.h"

#include <poll.h>

static struct rme_log_reader second_reader;

static void overtaken_readers(void)
{
    uint64_t first = 0, count = 0;
    struct rme_message m;
    make(folder, 7);
    EXPECT(rme_log_reader_open(&reader, folder, NULL), 0);
    EXPECT(rme_log_reader_open(&second_reader, folder, NULL), 0);
    EXPECT(rme_log_read(&second_reader, &m, 1, &count), 0);
    EXPECT(rme_log_drop(folder, 3, &first), 0);
    EXPECT(first, 3);
    EXPECT(rme_log_drop(folder, 2, &first), 0);
    EXPECT(first, 3);
    EXPECT(read_numbers(&reader, 1, 0), ENODATA);
    EXPECT(rme_log_wait(&reader, 5), ENODATA);
    EXPECT(read_numbers(&second_reader, 2, 2), ENODATA); /* what it has open it reads to the end */
    EXPECT(rme_log_seek(&reader, (struct rme_cursor){0, 0}), 0);
    EXPECT(read_numbers(&reader, 5, 7), 0);
    EXPECT(rme_log_seek(&reader, (struct rme_cursor){3, 1}), 0);
    EXPECT(read_numbers(&reader, 6, 7), 0);
    EXPECT(rme_log_seek(&reader, (struct rme_cursor){3, 65537}), EINVAL);
    EXPECT(rme_log_seek(&reader, (struct rme_cursor){UINT64_C(100000000), 0}), EINVAL);
    EXPECT(rme_log_seek(&reader, (struct rme_cursor){3, 3}), 0);
    EXPECT(rme_log_read(&reader, &m, 1, &count), EINVAL);
    EXPECT(rme_log_drop(folder, UINT64_MAX, &first), 0);
    EXPECT(first, 4); /* the last stays */
    EXPECT(append(&sender, 1), EALREADY);
    EXPECT(append(&sender, 8), 0);
    EXPECT(rme_log_seek_end(&reader), 0);
    EXPECT(append(&sender, 9), 0);
    EXPECT(read_numbers(&reader, 9, 9), 0);
}

static int note(const struct rme_log_reader_state *state, void *context)
{
    struct rme_log_reader_state *into = context;
    while (into->name[0])
        into++;
    *into = *state;
    return 0;
}

static void named_readers(void)
{
    struct rme_message m[8];
    struct rme_log_reader_state seen[3] = {{.name = ""}};
    uint64_t first = 0, count = 0;
    make(folder, 7);
    EXPECT(rme_log_reader_open(&reader, folder, "a"), 0);
    EXPECT(rme_log_reader_open(&second_reader, folder, "a"), EBUSY);
    EXPECT(rme_log_forget(folder, "a"), EBUSY);
    EXPECT(rme_log_read(&reader, m, 5, &count), 0);
    EXPECT(count, 5);
    EXPECT(rme_log_drop(folder, 9, &first), 0);
    EXPECT(first, 1); /* it has read, and has not kept that it has */
    EXPECT(rme_log_reader_close(&reader), 0);
    EXPECT(rme_log_reader_open(&reader, folder, "a"), 0);
    EXPECT(read_numbers(&reader, 1, 7), 0);
    EXPECT(rme_log_seek(&reader, (struct rme_cursor){2, 1}), 0);
    EXPECT(rme_log_keep(&reader), 0);
    EXPECT(rme_log_reader_open(&second_reader, folder, "b_-9"), 0);
    EXPECT(rme_log_drop(folder, 9, &first), 0);
    EXPECT(first, 1); /* for the second */
    EXPECT(rme_log_seek_end(&second_reader), 0);
    EXPECT(rme_log_keep(&second_reader), 0);
    EXPECT(rme_log_reader_close(&second_reader), 0);
    EXPECT(rme_log_drop(folder, 9, &first), 0);
    EXPECT(first, 2); /* for the first */
    EXPECT(rme_log_readers(folder, note, seen), 0);
    EXPECT(strcmp(seen[0].name, "a") == 0 && strcmp(seen[1].name, "b_-9") == 0, true);
    EXPECT(seen[0].unread == 4 && seen[0].alive && !seen[0].overtaken, true);
    EXPECT(seen[1].unread == 0 && !seen[1].alive && !seen[1].overtaken, true);
    EXPECT(read_numbers(&reader, 4, 7), 0);
    EXPECT(rme_log_reader_close(&reader), 0);
    EXPECT(rme_log_forget(folder, "a"), 0);
    EXPECT(rme_log_forget(folder, "a"), ENOENT);
    EXPECT(rme_log_drop(folder, 9, &first), 0);
    EXPECT(first, 4);
}

/* At the end of a closed segment that has a successor a reader has passed it. */
static void passed_segments(void)
{
    uint64_t first = 0;
    make(folder, 2);
    EXPECT(rme_log_reader_open(&reader, folder, "a"), 0);
    EXPECT(read_numbers(&reader, 1, 2), 0);
    EXPECT(append(&sender, 3), 0);
    EXPECT(rme_log_keep(&reader), 0);
    EXPECT(reader.cursor.segment, 2);
    EXPECT(rme_log_drop(folder, 9, &first), 0);
    EXPECT(first, 2);
    EXPECT(read_numbers(&reader, 3, 3), 0);
}

/* Another process appends `count` messages from this number on, one after each pause: the time at which it does. */
static pid_t append_soon(uint64_t first, uint64_t count, double pause)
{
    const pid_t child = fork();
    if (child == 0) {
        EXPECT(rme_log_open(&sender, folder, 1, 0), 0);
        for (uint64_t number = first; number < first + count; number++) {
            nap(pause);
            const double time = now();
            uint64_t value = 0;
            memcpy(&value, &time, sizeof value);
            EXPECT(rme_log_append(&sender, number, &value), 0);
        }
        _exit(0);
    }
    return child;
}

static int by_size(const void *a, const void *b)
{
    const double difference = *(const double *)a - *(const double *)b;
    return (difference > 0) - (difference < 0);
}

enum { TIMES = 15 };

/* Whether it is woken soon, at least mostly. Every second message comes where the segment before is full. */
static bool is_woken_soon(uint64_t first)
{
    struct rme_message m;
    uint64_t count = 0;
    int status = 0;
    double late[2][TIMES] = {{0}};
    const pid_t child = append_soon(first, 2 * TIMES, 0.13);
    for (uint64_t i = 0; i < 2 * TIMES; i++) {
        EXPECT(rme_log_wait(&reader, 5000), 0);
        const double woken = now();
        EXPECT(rme_log_read(&reader, &m, 1, &count), 0);
        EXPECT(m.number, first + i);
        memcpy(&late[i % 2][i / 2], m.value, sizeof late[0][0]);
        late[i % 2][i / 2] = woken - late[i % 2][i / 2];
    }
    waitpid(child, &status, 0);
    EXPECT(status, 0);
    for (int seam = 0; seam < 2; seam++)
        qsort(late[seam], TIMES, sizeof late[0][0], by_size);
    return late[0][TIMES / 2] < 0.02 && late[1][TIMES / 2] < 0.02;
}

/* It sleeps, and is woken soon: by its longest sleep alone it would be 50 milliseconds late. A machine that has much to do gets three
 * trials. */
static void readers_sleep(void)
{
    make(folder, 2);
    EXPECT(rme_log_close(&sender), 0);
    EXPECT(rme_log_reader_open(&reader, folder, NULL), 0);
    EXPECT(read_numbers(&reader, 1, 2), 0);
    const double begun = now();
    EXPECT(rme_log_wait(&reader, 30), ETIMEDOUT);
    EXPECT(now() - begun >= 0.03, true);
    bool soon = false;
    for (uint64_t trial = 0; trial < 3 && !soon; trial++)
        soon = is_woken_soon(1 + trial * 2 * TIMES);
    EXPECT(soon, true);
}

static void on_alarm(int signal) { (void)signal; }

static void waits_that_are_interrupted(void)
{
    make(folder, 1);
    EXPECT(rme_log_reader_open(&reader, folder, NULL), 0);
    EXPECT(rme_log_seek_end(&reader), 0);
    const struct sigaction action = {.sa_handler = on_alarm, .sa_flags = SA_RESTART};
    sigaction(SIGALRM, &action, NULL);
    ualarm(20000, 20000); /* again and again: the first may come before it waits */
    EXPECT(rme_log_wait(&reader, 5000), EINTR);
}

static void events(void)
{
    int file = -1;
    uint64_t times = 0, count = 0;
    struct rme_message m;
    make(folder, 1);
    EXPECT(rme_log_reader_open(&reader, folder, "a"), 0);
    EXPECT(rme_log_event(&reader, &file), 0);
    EXPECT(rme_log_event(&reader, &file), EALREADY);
    struct pollfd polled = {.fd = file, .events = POLLIN};
    EXPECT(poll(&polled, 1, 5000), 1); /* for the message that is there */
    EXPECT(read(file, &times, sizeof times), sizeof times);
    EXPECT(read_numbers(&reader, 1, 1), 0);
    EXPECT(poll(&polled, 1, 150), 0);
    const pid_t child = append_soon(1, 5, 0.02);
    for (uint64_t got = 0; got < 5;) {
        EXPECT(poll(&polled, 1, 5000), 1);
        EXPECT(read(file, &times, sizeof times), sizeof times);
        for (int error = 0; !error && !(error = rme_log_read(&reader, &m, 1, &count)) && count == 1; got++)
            EXPECT(m.number, got + 1);
    }
    waitpid(child, NULL, 0);
    EXPECT(rme_log_reader_close(&reader), 0);
    EXPECT(fcntl(file, F_GETFD), -1);
}

/* With read permission alone: it reads and waits, and can neither keep a cursor nor drop. */
static void read_permission(void)
{
    int status = 0, ends[2];
    char byte = 0;
    make(folder, 1);
    EXPECT(pipe2(ends, O_CLOEXEC), 0);
    EXPECT(chmod(folder, 0755) || chmod(name_in(folder, "log"), 0644) || chmod(name_in(folder, "00000001"), 0644), 0);
    const pid_t child = fork();
    if (child == 0) {
        if (getuid() == 0)
            EXPECT(setgid(65534) || setuid(65534), 0);
        EXPECT(rme_log_reader_open(&reader, folder, "a"), EACCES);
        EXPECT(rme_log_drop(folder, 9, NULL), EACCES);
        EXPECT(rme_log_open(&second, folder, 1, 0), EACCES);
        EXPECT(rme_log_reader_open(&reader, folder, NULL), 0);
        EXPECT(read_numbers(&reader, 1, 1), 0);
        EXPECT(rme_log_wait(&reader, 5), ETIMEDOUT);
        EXPECT(write(ends[1], &byte, 1), 1);
        EXPECT(rme_log_wait(&reader, 5000), 0);
        EXPECT(read_numbers(&reader, 2, 2), 0);
        _exit(0);
    }
    close(ends[1]);
    EXPECT(read(ends[0], &byte, 1) >= 0, true);
    if (getuid() == 0)
        EXPECT(append(&sender, 2), 0);
    waitpid(child, &status, 0);
    EXPECT(getuid() != 0 || status == 0, true);
}

/* ---- all of them ---- */

int main(int count, char **word)
{
    static const struct test tests[] = {
        TEST(overtaken_readers), TEST(named_readers), TEST(passed_segments), TEST(readers_sleep), TEST(waits_that_are_interrupted),
        TEST(events), TEST(read_permission),
    };
    return run_tests(count, word, tests, sizeof tests / sizeof *tests);
}
