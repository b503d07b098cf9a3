/* What rme_log.h says of senders, of faults and of misuse: log_test FOLDER [--no-mount] [TEST]. The test of a full disk mounts a small file
 * system, seen by itself alone; --no-mount leaves it out. */
#define _GNU_SOURCE
#include "log_test.h"

#include <sched.h>
#include <sys/mount.h>

/* As calls_test.c says of the library's other structs. */
_Static_assert(sizeof(struct rme_log) == 5000 && sizeof(struct rme_log_reader) == 5320 && sizeof(struct rme_log_state) == 568 &&
                   sizeof(struct rme_log_reader_state) == 96,
               "the structs of version 2");

static void change(const char *path, uint64_t word, uint64_t to)
{
    const int file = open(path, O_WRONLY | O_CLOEXEC);
    EXPECT(pwrite(file, &to, sizeof to, (off_t)(8 * word)), sizeof to);
    close(file);
}

static void copy(const char *from, const char *to)
{
    static char bytes[1 << 16];
    const int in = open(from, O_RDONLY | O_CLOEXEC), out = open(to, O_WRONLY | O_CREAT | O_TRUNC | O_CLOEXEC, 0600);
    const ssize_t got = read(in, bytes, sizeof bytes);
    EXPECT(got > 0 && write(out, bytes, (size_t)got) == got, true);
    close(in), close(out);
}

/* ---- senders ---- */

static void sizes_and_names(void)
{
    char longest[RME_LOG_PATH + 1];
    memset(longest, 'a', RME_LOG_PATH);
    longest[RME_LOG_PATH] = 0;
    EXPECT(rme_log_open(&sender, folder, 0, 0), ENOENT);
    EXPECT(rme_log_create(folder, 65, 2, 1), EINVAL);
    EXPECT(rme_log_create(folder, 2, 65537, 1), EINVAL);
    EXPECT(rme_log_create(folder, 2, 2, 9), EINVAL);
    EXPECT(rme_log_create(NULL, 2, 2, 1), EINVAL);
    EXPECT(rme_log_create(longest, 2, 2, 1), ENAMETOOLONG);
    EXPECT(mkdir(folder, 0700), 0); /* as one who died in rme_log_create leaves it */
    EXPECT(rme_log_open(&sender, folder, 0, 0), ENOENT);
    EXPECT(rme_log_create(folder, 2, 2, 1), 0);
    EXPECT(rme_log_create(folder, 2, 2, 1), EEXIST);
    EXPECT(rme_log_open(&sender, folder, 2, 0), EINVAL);
    EXPECT(rme_log_open(&sender, folder, 0, 0), 0);
    EXPECT(rme_log_open(&second, folder, 0, 0), EBUSY);
    EXPECT(rme_log_open(&second, folder, 1, 0), 0);
    EXPECT(rme_log_close(&second), 0);
    EXPECT(rme_log_close(&second), EINVAL);
    EXPECT(append(&second, 1), EINVAL);
    EXPECT(rme_log_next(&second, &second.number), EINVAL);
    EXPECT(rme_log_reader_open(&reader, folder, "a/b"), EINVAL);
    EXPECT(rme_log_reader_open(&reader, folder, ""), EINVAL);
    EXPECT(rme_log_reader_open(&reader, folder, longest), EINVAL);
    EXPECT(rme_log_keep(&reader), EINVAL);
    EXPECT(rme_log_reader_close(&reader), EINVAL);
}

/* Each message once, whatever is repeated, over three seams. */
static void numbers_go_on(void)
{
    uint64_t next = 0;
    make(folder, 0);
    EXPECT(rme_log_next(&sender, &next), 0);
    EXPECT(next, 1);
    EXPECT(rme_log_open(&second, folder, 1, 0), 0);
    for (uint64_t number = 1; number <= 7; number++) {
        EXPECT(append(&sender, number + 1), EINVAL);
        EXPECT(append(&sender, number), 0);
        for (uint64_t earlier = 1; earlier <= number; earlier++)
            EXPECT(append(&sender, earlier), EALREADY);
        EXPECT(append(&sender, 0), EINVAL);
        EXPECT(rme_log_next(&sender, &next), 0);
        EXPECT(next, number + 1);
    }
    EXPECT(append(&second, 2), EINVAL); /* it still has the first segment open */
    EXPECT(append(&second, 1), 0);
    EXPECT(rme_log_close(&sender), 0);
    EXPECT(rme_log_open(&sender, folder, 0, 0), 0);
    EXPECT(append(&sender, 7), EALREADY);
    EXPECT(append(&sender, 8), 0);
    struct rme_log_state state;
    EXPECT(rme_log_status(folder, &state), 0);
    EXPECT(state.messages, 9);
    EXPECT(state.numbers[0], 8);
    EXPECT(state.numbers[1], 1);
    EXPECT(state.last, 5);
}

/* Stands in the way of a sender who dies inside: the others go on without it. */
static void dead_senders_are_reaped(void)
{
    int status = 0;
    make(folder, 1);
    const pid_t child = fork();
    if (child == 0) {
        EXPECT(rme_log_open(&second, folder, 1, 0), 0);
        EXPECT(rme_lock(&second.segments[second.at]), 0);
        kill(getpid(), SIGKILL);
    }
    waitpid(child, &status, 0);
    EXPECT(WIFSIGNALED(status), true);
    for (uint64_t number = 2; number <= 5; number++)
        EXPECT(append(&sender, number), 0);
    EXPECT(rme_log_open(&second, folder, 1, 0), 0);
    EXPECT(append(&second, 1), 0);
}

/* A child of fork has no log, and can close its share. */
static void child_of_fork(void)
{
    int status = 0;
    uint64_t next;
    make(folder, 3);
    const pid_t child = fork();
    if (child == 0) {
        EXPECT(append(&sender, 4), EINVAL);
        EXPECT(rme_log_next(&sender, &next), EINVAL);
        EXPECT(rme_log_close(&sender), EINVAL);
        _exit(0);
    }
    waitpid(child, &status, 0);
    EXPECT(status, 0);
    EXPECT(append(&sender, 4), 0);
    EXPECT(rme_log_open(&second, folder, 0, 0), EBUSY);
}

static void other_working_folder(void)
{
    EXPECT(chdir(room), 0);
    make("log", 1);
    EXPECT(rme_log_reader_open(&reader, "log", "a"), 0);
    EXPECT(chdir("/"), 0);
    for (uint64_t number = 2; number <= 5; number++)
        EXPECT(append(&sender, number), 0);
    EXPECT(read_numbers(&reader, 1, 5), 0);
}

static void no_segment_is_left(void)
{
    make(folder, 2);
    EXPECT(rme_log_close(&sender), 0);
    EXPECT(rename(name_in(folder, "00000001"), name_in(folder, "99999999")), 0);
    change(name_in(folder, "log"), 1046, 99999999); /* the first */
    change(name_in(folder, "log"), 1047, 99999999); /* the last */
    change(name_in(folder, "99999999"), 1048 + 4, 99999999);
    EXPECT(rme_log_open(&sender, folder, 0, 0), 0);
    EXPECT(append(&sender, 2), EALREADY);
    EXPECT(append(&sender, 3), EOVERFLOW);
    EXPECT(append(&sender, 3), EOVERFLOW);
}

/* ---- faults ---- */

static void full_disk(void)
{
    if (unshare(CLONE_NEWNS) || mount(NULL, "/", NULL, MS_REC | MS_PRIVATE, NULL) || mount("none", room, "tmpfs", 0, "size=64k"))
        EXPECT(errno, 0); /* --no-mount leaves this out */
    make(folder, 2);
    const int filler = open(name_in(room, "filler"), O_WRONLY | O_CREAT | O_CLOEXEC, 0600);
    for (char bytes[4096] = {1}; write(filler, bytes, sizeof bytes) > 0;)
        ;
    for (int times = 0; times < 3; times++)
        EXPECT(append(&sender, 3), ENOSPC);
    EXPECT(append(&sender, 2), EALREADY);
    EXPECT(rme_log_reader_open(&reader, folder, "a"), ENOSPC);
    EXPECT(rme_log_create(name_in(room, "new"), 2, 2, 1), ENOSPC);
    EXPECT(rme_log_reader_open(&reader, folder, NULL), 0);
    EXPECT(read_numbers(&reader, 1, 2), 0);
    EXPECT(rme_log_wait(&reader, 5), ETIMEDOUT);
    EXPECT(ftruncate(filler, 0), 0);
    EXPECT(append(&sender, 3), 0);
    EXPECT(rme_log_wait(&reader, 5), 0);
    EXPECT(read_numbers(&reader, 3, 3), 0);
    close(filler);
    rme_log_reader_close(&reader), rme_log_close(&sender);
}

static void missing_segments(void)
{
    make(folder, 5);
    EXPECT(rme_log_close(&sender), 0);
    EXPECT(rename(name_in(folder, "00000002"), name_in(room, "kept")), 0);
    EXPECT(rme_log_reader_open(&reader, folder, NULL), 0);
    EXPECT(read_numbers(&reader, 1, 2), ENOLINK);
    EXPECT(rme_log_wait(&reader, 5), ENOLINK);
    EXPECT(rename(name_in(room, "kept"), name_in(folder, "00000002")), 0);
    EXPECT(read_numbers(&reader, 3, 5), 0);
    EXPECT(rename(name_in(folder, "00000003"), name_in(room, "kept")), 0);
    EXPECT(rme_log_open(&sender, folder, 0, 0), ENOLINK);
    EXPECT(rename(name_in(room, "kept"), name_in(folder, "00000003")), 0);
    EXPECT(rme_log_open(&sender, folder, 0, 0), 0);
    EXPECT(append(&sender, 6), 0);
    EXPECT(rme_log_open(&second, folder, 1, 0), 0);
    EXPECT(append(&sender, 7), 0);
    EXPECT(rename(name_in(folder, "00000004"), name_in(room, "kept")), 0);
    EXPECT(append(&second, 1), ENOLINK); /* it has the third open, and does not make the fourth anew */
    EXPECT(rename(name_in(room, "kept"), name_in(folder, "00000004")), 0);
    EXPECT(append(&second, 1), 0);
}

/* Puts a file in the place of segment 2 or its like, and back; each refusal is named, and nothing is lost. */
static void in_the_place(const char *foreign, const char *place, int named)
{
    EXPECT(rename(name_in(folder, place), name_in(room, "kept")), 0);
    if (foreign)
        copy(foreign, name_in(folder, place));
    else
        EXPECT(mkdir(name_in(folder, place), 0700), 0);
    EXPECT(rme_log_reader_open(&reader, folder, NULL), 0);
    EXPECT(read_numbers(&reader, 1, 2), named);
    EXPECT(append(&sender, 3), EALREADY);
    EXPECT(remove(name_in(folder, place)), 0);
    EXPECT(rename(name_in(room, "kept"), name_in(folder, place)), 0);
    EXPECT(read_numbers(&reader, 3, 3), 0);
    EXPECT(rme_log_reader_close(&reader), 0);
}

static void foreign_files(void)
{
    static struct rme_log foreign;
    make(folder, 3);
    EXPECT(rme_log_create(other, 2, 2, 1), 0);
    EXPECT(rme_log_open(&foreign, other, 0, 0), 0);
    for (uint64_t number = 1; number <= 3; number++)
        EXPECT(append(&foreign, number), 0);
    EXPECT(rme_create(name_in(room, "box"), 2, 2, 1, 0), 0);
    copy("/proc/self/status", name_in(room, "text"));
    in_the_place(name_in(room, "text"), "00000002", EBADMSG);
    in_the_place(name_in(room, "box"), "00000002", EBADMSG);
    in_the_place(name_in(folder, "log"), "00000002", EBADMSG);
    in_the_place(name_in(folder, "00000001"), "00000002", EPROTO);
    in_the_place(name_in(other, "00000002"), "00000002", EPROTO);
    in_the_place(NULL, "00000002", EISDIR);
    copy(name_in(folder, "00000002"), name_in(room, "changed"));
    change(name_in(room, "changed"), 1048 + 16, 7); /* a base number */
    in_the_place(name_in(room, "changed"), "00000002", EPROTO);
    EXPECT(append(&sender, 4), 0);
    copy(name_in(room, "text"), name_in(folder, "00000003"));
    EXPECT(append(&sender, 5), EBADMSG);
    EXPECT(append(&sender, 5), EBADMSG);
    EXPECT(remove(name_in(folder, "00000003")), 0);
    EXPECT(append(&sender, 5), 0);
}

static void foreign_heads(void)
{
    make(folder, 3);
    copy("/proc/self/status", name_in(room, "text"));
    copy("/proc/self/status", name_in(folder, "reader-x"));
    EXPECT(rme_log_reader_open(&reader, folder, "x"), EBADMSG);
    EXPECT(rme_log_drop(folder, 9, NULL), EBADMSG);
    EXPECT(rename(name_in(folder, "reader-x"), name_in(folder, "reader-x.AbC123")), 0); /* as one who died making it may leave it */
    copy(name_in(room, "text"), name_in(folder, "00000001.AbC123"));
    copy("/proc/self/status", name_in(folder, "notes"));
    copy(name_in(folder, "00000001"), name_in(folder, "00000001.save"));
    copy("/proc/self/status", name_in(folder, "00000000"));
    EXPECT(rme_log_drop(folder, 9, NULL), 0);
    EXPECT(access(name_in(folder, "00000001"), F_OK), -1);
    EXPECT(access(name_in(folder, "00000001.AbC123"), F_OK), -1);
    EXPECT(remove(name_in(folder, "reader-x.AbC123")), 0);
    EXPECT(remove(name_in(folder, "notes")), 0);
    EXPECT(remove(name_in(folder, "00000001.save")), 0);
    EXPECT(remove(name_in(folder, "00000000")), 0);
    copy("/proc/self/status", name_in(folder, "00000001"));
    EXPECT(rme_log_drop(folder, 9, NULL), EBADMSG);
    EXPECT(remove(name_in(folder, "00000001")), 0);
    EXPECT(rme_create(name_in(folder, "00000001"), 2, 2, 1, 0), 0);
    EXPECT(rme_log_drop(folder, 9, NULL), EBADMSG);
    EXPECT(remove(name_in(folder, "00000001")), 0);
    EXPECT(rme_log_close(&sender), 0);
    EXPECT(rename(name_in(folder, "log"), name_in(room, "kept")), 0);
    EXPECT(rme_log_open(&sender, folder, 0, 0), ENOENT);
    EXPECT(rme_log_status(folder, (struct rme_log_state[1]){{0}}), ENOENT);
    copy("/proc/self/status", name_in(folder, "log"));
    EXPECT(rme_log_open(&sender, folder, 0, 0), EBADMSG);
    EXPECT(rme_log_reader_open(&reader, folder, NULL), EBADMSG);
    copy(name_in(folder, "00000002"), name_in(folder, "log"));
    EXPECT(rme_log_open(&sender, folder, 0, 0), EBADMSG);
    EXPECT(rename(name_in(room, "kept"), name_in(folder, "log")), 0);
    EXPECT(rme_log_open(&sender, folder, 0, 0), 0);
    EXPECT(append(&sender, 4), 0);
}

/* ---- all of them ---- */

int main(int count, char **word)
{
    static const struct test tests[] = {
        TEST(sizes_and_names), TEST(numbers_go_on), TEST(dead_senders_are_reaped), TEST(child_of_fork), TEST(other_working_folder),
        TEST(no_segment_is_left), {"full_disk", full_disk, true}, TEST(missing_segments), TEST(foreign_files), TEST(foreign_heads),
    };
    return run_tests(count, word, tests, sizeof tests / sizeof *tests);
}
