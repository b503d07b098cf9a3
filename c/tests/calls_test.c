/* What the header of the shim says of its calls: limits, misuse, and what is refused when.
 *
 *     calls_test FOLDER [NAME] */
#define _GNU_SOURCE
#include "test.h"

#include <sys/resource.h>
#include <sys/stat.h>

/* A program has room for these structs as they were when it was compiled. Another size is another major version, which rme.h, rme.map, rme.py,
 * rust/Cargo.toml and docs/use/c.md name. */
_Static_assert(sizeof(struct rme_seat) == 296 && sizeof(struct rme_message) == 80 && sizeof(struct rme_file) == 72 &&
                   sizeof(struct rme_index) == 64,
               "the structs of version 2");

static void calls_without_an_attach(void)
{
    static struct rme_seat seat;
    struct rme_message message;
    uint64_t word = 7;
    EXPECT(rme_read_from(&seat, 0, &message, 1), 0);
    EXPECT(rme_lock(&seat), EINVAL);
    EXPECT(rme_unlock(&seat), EINVAL);
    EXPECT(rme_append(&seat, 1, &word), EINVAL);
    EXPECT(rme_recover(&seat, NULL), EINVAL);
    EXPECT(rme_detach(&seat), EINVAL);
}

static void create_says_its_limits(void)
{
    struct stat status;
    make(2, 65536);
    EXPECT(stat(path, &status), 0);
    EXPECT(status.st_mode & 0777, 0600);
    EXPECT(rme_create(other_path, 2, 65537, 1, 0), EINVAL);
    EXPECT(rme_create(other_path, 2, 0, 1, 0), EINVAL);
    EXPECT(rme_create(other_path, 65, 4, 1, 0), EINVAL);
    EXPECT(rme_create(other_path, 2, 4, 9, 0), EINVAL);
    EXPECT(rme_create(other_path, 2, 4, 1, UINT64_MAX), EFBIG);
    EXPECT(rme_create(NULL, 2, 4, 1, 0), EINVAL);
}

static void looking_changes_nothing(void)
{
    struct rme_seat looks, seat;
    struct rme_index status;
    struct rme_file whole;
    static uint64_t before[4096], after[4096];
    make(2, 4);
    die(0, INSIDE);
    int file = open(path, O_RDONLY);
    ssize_t bytes = pread(file, before, sizeof before, 0);
    EXPECT(rme_inspect(&looks, path), 0);
    EXPECT(rme_lock(&looks), EINVAL);
    EXPECT(rme_recover(&looks, NULL), EINVAL);
    EXPECT(rme_index_status(&looks, 0, &status), 0);
    EXPECT(status.life == RME_DEAD && status.found == RME_FOUND_INSIDE, true);
    EXPECT(rme_index_status(&looks, 2, &status), EINVAL);
    EXPECT(rme_file_status(&looks, &whole), 0);
    EXPECT(whole.procs == 2 && whole.cap == 4 && whole.width == 1 && whole.words == looks.count && whole.count == 0, true);
    EXPECT(pread(file, after, sizeof after, 0), bytes);
    EXPECT(memcmp(before, after, (size_t)bytes), 0);
    EXPECT(rme_attach(&seat, path, 1), 0);
    EXPECT(rme_index_status(&looks, 1, &status), 0);
    EXPECT(status.life == RME_ALIVE && status.found == RME_FOUND_IDLE, true);
    EXPECT(rme_index_status(&seat, 1, &status), 0);
    EXPECT(status.life, RME_ALIVE);
    EXPECT(rme_detach(&seat), 0);
    EXPECT(rme_index_status(&looks, 1, &status), 0);
    EXPECT(status.life, RME_ABSENT);
    EXPECT(rme_detach(&looks), 0);
    EXPECT(rme_detach(&looks), EINVAL);
}

static void two_threads_on_one_seat(void)
{
    struct rme_seat holder;
    pthread_t thread;
    make(2, 4);
    EXPECT(rme_attach(&holder, path, 0), 0);
    EXPECT(rme_attach(&shared, path, 1), 0);
    EXPECT(rme_lock(&holder), 0);
    EXPECT(pthread_create(&thread, NULL, lock_and_unlock, NULL), 0);
    nap(0.1);
    EXPECT(rme_unlock(&shared), EBUSY);
    EXPECT(rme_lock(&shared), EBUSY);
    EXPECT(rme_detach(&shared), EBUSY);
    EXPECT(rme_unlock(&holder), 0);
    EXPECT(pthread_join(thread, NULL), 0);
    EXPECT(thread_answer, 0);
    EXPECT(rme_detach(&shared), 0);
}

static void seat_in_a_child_of_fork(void)
{
    struct rme_seat seat, other;
    int status;
    make(2, 4);
    EXPECT(rme_attach(&seat, path, 0), 0);
    EXPECT(rme_lock(&seat), 0);
    pid_t child = fork();
    if (child == 0) {
        EXPECT(rme_lock(&seat), EINVAL);
        EXPECT(rme_unlock(&seat), EINVAL);
        EXPECT(rme_append(&seat, 1, &(uint64_t){7}), EINVAL);
        EXPECT(rme_detach(&seat), EINVAL);
        nap(0.5);
        _exit(0);
    }
    nap(0.2);
    EXPECT(rme_append(&seat, 1, &(uint64_t){7}), 0);
    EXPECT(rme_unlock(&seat), 0);
    EXPECT(rme_detach(&seat), 0);
    EXPECT(rme_attach(&other, path, 0), 0); /* the child lives, and has closed its share of the file */
    EXPECT(waitpid(child, &status, WNOHANG), 0);
    EXPECT(waitpid(child, &status, 0), child);
    EXPECT(status, 0);
}

static void calls_after_a_timeout(void)
{
    struct rme_seat seat, holder;
    uint64_t word = 7;
    make(2, 4);
    EXPECT(rme_attach(&seat, path, 0), 0);
    EXPECT(rme_attach(&holder, path, 1), 0);
    EXPECT(rme_lock(&holder), 0);
    EXPECT(rme_lock_within(&seat, 3), ETIMEDOUT);
    EXPECT(rme_unlock(&seat), EBUSY);
    EXPECT(rme_append(&seat, 1, &word), EBUSY);
    EXPECT(rme_recover(&seat, NULL), EBUSY);
    EXPECT(rme_get(&seat, 0, &word), EBUSY);
    EXPECT(rme_lock_within(&seat, 3), ETIMEDOUT);
    EXPECT(rme_detach(&seat), EBUSY);
    EXPECT(rme_attach(&seat, path, 0), 0);
    EXPECT(seat.crashed, true);
    EXPECT(rme_unlock(&holder), 0);
    EXPECT(rme_lock(&seat), 0);
    EXPECT(rme_detach(&seat), EBUSY);
}

static void recover_that_finds_inside(void)
{
    struct rme_seat seat;
    int found = 0;
    make(2, 4);
    die(0, INSIDE);
    EXPECT(rme_attach(&seat, path, 0), 0);
    EXPECT(rme_recover(&seat, &found), 0);
    EXPECT(found, RME_FOUND_INSIDE);
    EXPECT(rme_lock(&seat), EDEADLK);
    EXPECT(rme_append(&seat, 1, &(uint64_t){7}), EOWNERDEAD);
    EXPECT(rme_consistent(&seat), 0);
    EXPECT(rme_append(&seat, 1, &(uint64_t){7}), 0);
    EXPECT(rme_unlock(&seat), 0);
}

static void mailbox_that_is_full(void)
{
    struct rme_seat seat;
    make(2, 2);
    EXPECT(rme_attach(&seat, path, 0), 0);
    EXPECT(rme_lock(&seat), 0);
    EXPECT(rme_append(&seat, 1, NULL), EINVAL);
    EXPECT(rme_append(&seat, 1, &(uint64_t){7}), 0);
    EXPECT(rme_append(&seat, 2, &(uint64_t){7}), 0);
    EXPECT(rme_append(&seat, 3, &(uint64_t){7}), ENOSPC);
    EXPECT(rme_get(&seat, 0, NULL), EINVAL);
    EXPECT(rme_unlock(&seat), 0);
}

static void attach_twice_into_one_struct(void)
{
    struct rme_seat seat, other;
    make(2, 4);
    EXPECT(rme_attach(&seat, path, 0), 0);
    EXPECT(rme_attach(&seat, path, 1), 0);
    EXPECT(rme_detach(&seat), 0);
    EXPECT(rme_attach(&other, path, 1), 0);
    EXPECT(rme_attach(&seat, path, 0), EBUSY);
}

static void null_pointers(void)
{
    EXPECT(rme_attach(NULL, path, 0), EINVAL);
    EXPECT(rme_attach(&shared, NULL, 0), EINVAL);
    EXPECT(rme_lock(NULL), EINVAL);
    EXPECT(rme_detach(NULL), EINVAL);
    EXPECT(rme_read_from(NULL, 0, NULL, 1), 0);
}

static void shorten_while_it_is_mapped(void)
{
    make(2, 65536);
    pid_t child = fork();
    if (child == 0) {
        static struct rme_seat seat;
        const struct rlimit none = {0, 0};
        setrlimit(RLIMIT_CORE, &none);
        signal(SIGBUS, SIG_DFL); /* also where a sanitizer has its own handler */
        EXPECT(rme_attach(&seat, path, 0), 0);
        EXPECT(truncate(path, 4096), 0);
        rme_lock(&seat);
        _exit(2);
    }
    int status = 0;
    waitpid(child, &status, 0);
    EXPECT(WIFSIGNALED(status) ? WTERMSIG(status) : 0, SIGBUS);
}

/* ---- widths, whole words, data ---- */

/* A word of which each half and each byte differs from those of the other words. */
static uint64_t whole_word(uint64_t k) { return (k + 1) * UINT64_C(0x9e3779b97f4a7c15) | UINT64_C(0x8000000080000001); }

static void expect_messages(const struct rme_seat *seat, uint64_t width, uint64_t count)
{
    struct rme_message read[8];
    static uint64_t words[256];
    EXPECT(rme_read_from(seat, 0, read, 8), count);
    EXPECT(rme_copy_words(seat, words, 256), seat->count);
    for (uint64_t k = 0; k < count; k++) {
        const uint64_t *entry = words + 3 * 2 + 10 + width + 2 + (2 + width) * k;
        EXPECT(read[k].sender == 0 && read[k].number == k + 1 && entry[0] == 0 && entry[1] == k + 1, true);
        for (uint64_t j = 0; j < 8; j++) {
            EXPECT(read[k].value[j] == (j < width ? whole_word(8 * k + j) : 0), true);
            EXPECT(j >= width || entry[2 + j] == whole_word(8 * k + j), true);
        }
    }
    EXPECT(rme_content_rule(words, seat->count, 2, 4, width, RME_LIMIT), RME_LAWFUL);
}

static void messages_of_each_width(void)
{
    for (uint64_t width = 1; width <= 8; width++) {
        struct rme_seat seat;
        uint64_t value[9];
        unlink(path);
        EXPECT(rme_create(path, 2, 4, width, 0), 0);
        EXPECT(rme_attach(&seat, path, 0), 0);
        for (uint64_t k = 0; k < 4; k++) {
            for (uint64_t j = 0; j < 9; j++)
                value[j] = whole_word(8 * k + j);
            EXPECT(rme_lock(&seat), 0);
            EXPECT(rme_append(&seat, k + 1, value), 0);
            EXPECT(rme_append(&seat, k + 1, (uint64_t[8]){0}), EALREADY);
            EXPECT(rme_unlock(&seat), 0);
            expect_messages(&seat, width, k + 1);
        }
        EXPECT(rme_detach(&seat), 0);
    }
}

static void board_of_whole_words(void)
{
    struct rme_seat seat, other;
    static uint64_t words[256];
    uint64_t word;
    make(2, 4);
    EXPECT(rme_attach(&seat, path, 0), 0);
    EXPECT(rme_attach(&other, path, 1), 0);
    EXPECT(rme_put(&seat, 0, 1), EPERM);
    EXPECT(rme_get(&seat, 0, &word), EPERM);
    EXPECT(rme_lock(&seat), 0);
    for (uint64_t i = 0; i < 4; i++) {
        EXPECT(rme_put(&seat, i, UINT64_MAX), 0);
        EXPECT(rme_put(&seat, i, whole_word(i)), 0);
    }
    EXPECT(rme_put(&seat, 4, 1), EINVAL);
    EXPECT(rme_put(&seat, UINT64_MAX, 1), EINVAL);
    EXPECT(rme_get(&seat, 4, &word), EINVAL);
    EXPECT(rme_unlock(&seat), 0);
    EXPECT(rme_lock(&other), 0);
    EXPECT(rme_copy_words(&other, words, 256), seat.count);
    for (uint64_t i = 0; i < 4; i++) {
        EXPECT(rme_get(&other, i, &word), 0);
        EXPECT(word == whole_word(i), true);
        uint64_t found = 0; /* it stands once in the data words */
        for (uint64_t at = 6; at < seat.count; at++)
            found += words[at] == whole_word(i);
        EXPECT(found, 1);
    }
}

/* The caller's data are at a multiple of 64, of the whole length, and apart from the words. */
static void data_of_each_size(void)
{
    static uint64_t before[4096], after[4096];
    for (uint64_t k = 0; k < 200; k++) {
        struct rme_seat seat;
        const uint64_t procs = 1 + k % 5, cap = 1 + k % 7, width = 1 + k % 8, bytes = 1 + (k * 37) % 3000;
        size_t length = 0;
        unlink(path);
        EXPECT(rme_create(path, procs, cap, width, bytes), 0);
        EXPECT(rme_attach(&seat, path, 0), 0);
        unsigned char *data = rme_data(&seat, &length);
        EXPECT(length, bytes);
        EXPECT((uintptr_t)data % 64, 0);
        EXPECT(rme_lock(&seat), 0);
        EXPECT(rme_copy_words(&seat, before, 4096), seat.count);
        for (size_t i = 0; i < length; i++)
            EXPECT(data[i], 0);
        memset(data, 0xff, length);
        EXPECT(rme_copy_words(&seat, after, 4096), seat.count);
        EXPECT(memcmp(before, after, 8 * seat.count), 0);
        EXPECT(rme_unlock(&seat), 0);
        EXPECT(rme_detach(&seat), 0);
    }
}

/* ---- numbers that are spent ---- */

static void write_lock_word(uint64_t index, uint64_t k, uint64_t word)
{
    int file = open(path, O_WRONLY | O_CLOEXEC);
    EXPECT(pwrite(file, &word, sizeof word, (off_t)(RME_HEADER + 64 * index + 8 * k)), sizeof word);
    close(file);
}

static void numbers_that_are_spent(void)
{
    struct rme_seat seat;
    struct rme_index status;
    make(2, 4);
    EXPECT(rme_attach(&seat, path, 0), 0);
    write_lock_word(1, 1, RME_LIMIT);
    EXPECT(rme_lock(&seat), EOVERFLOW);
    EXPECT(rme_unlock(&seat), EPERM);
    EXPECT(rme_append(&seat, 1, &(uint64_t){7}), EPERM);
    EXPECT(rme_lock_within(&seat, 3), EOVERFLOW);
    EXPECT(rme_trylock(&seat), EOVERFLOW);
    EXPECT(rme_lock_until(&seat, &(struct timespec){0, 0}), EOVERFLOW);
    EXPECT(rme_lock_reaping(&seat, 3, NULL, NULL), EOVERFLOW);
    EXPECT(rme_index_status(&seat, 0, &status), 0);
    EXPECT(status.found, RME_FOUND_IDLE);
    EXPECT(status.entries, 0);
    write_lock_word(1, 1, 0);
    EXPECT(rme_lock(&seat), 0);
}

/* ---- a copy, a mode, a descriptor, a notice ---- */

static void copy_of_a_seat(void)
{
    struct rme_seat seat, copy;
    struct rme_message message;
    uint64_t word;
    make(2, 4);
    EXPECT(rme_attach(&seat, path, 0), 0);
    for (int inside = 0; inside < 2; inside++) {
        copy = seat;
        EXPECT(rme_lock(&copy), EINVAL);
        EXPECT(rme_trylock(&copy), EINVAL);
        EXPECT(rme_lock_reaping(&copy, 3, NULL, NULL), EINVAL);
        EXPECT(rme_unlock(&copy), EINVAL);
        EXPECT(rme_append(&copy, 1, &(uint64_t){7}), EINVAL);
        EXPECT(rme_get(&copy, 0, &word), EINVAL);
        EXPECT(rme_interrupt(&copy), EINVAL);
        EXPECT(rme_read_from(&copy, 0, &message, 1), 0);
        EXPECT(rme_data(&copy, NULL) == NULL, true);
        EXPECT(rme_detach(&copy), EINVAL);
        EXPECT(inside ? rme_unlock(&seat) : rme_lock(&seat), 0);
    }
    EXPECT(rme_detach(&seat), 0);
    EXPECT(rme_detach(&copy), EINVAL);
}

static void mode_and_group(void)
{
    struct stat status;
    gid_t groups[64];
    const int known = getgroups(64, groups);
    const gid_t group = geteuid() == 0 ? 4321 : known > 0 ? groups[0] : getegid();
    unlink(path);
    umask(0777);
    EXPECT(rme_create_as(path, 2, 4, 1, 0, 0660, group), 0);
    EXPECT(stat(path, &status), 0);
    EXPECT(status.st_mode & 07777, 0660);
    EXPECT(status.st_gid, group);
    EXPECT(rme_create_as(path, 2, 4, 1, 0, 0644, group), EEXIST);
    unlink(path);
    EXPECT(rme_create_as(path, 2, 4, 1, 0, 0644, (gid_t)-1), 0);
    EXPECT(stat(path, &status), 0);
    EXPECT(status.st_mode & 07777, 0644);
}

/* By a descriptor that two have: each index is one's all the same. */
static void attach_by_descriptor(void)
{
    struct rme_seat seat, other;
    make(2, 4);
    const int file = open(path, O_RDWR | O_CLOEXEC);
    unlink(path);
    EXPECT(rme_attach_file(&seat, -1, 0, 0), EBADF);
    EXPECT(rme_attach_file(&seat, file, 2, 0), EINVAL);
    EXPECT(rme_attach_file(&seat, file, 0, 0), 0);
    EXPECT(rme_attach_file(&other, file, 0, 0), EBUSY);
    EXPECT(rme_attach_file(&other, file, 1, 0), 0);
    EXPECT(rme_lock(&seat), 0);
    EXPECT(rme_lock_within(&other, 3), ETIMEDOUT);
    EXPECT(rme_detach(&seat), EBUSY);
    EXPECT(fcntl(file, F_GETFD) >= 0, true);
    EXPECT(rme_lock_reaping(&other, 3, NULL, NULL), 0);
    close(file);
    EXPECT(rme_unlock(&other), 0);
    EXPECT(rme_detach(&other), 0);
}

/* What a reaper has found lasts until an orderly detach, or until it is acknowledged. */
static void notice_of_a_reaping(void)
{
    struct rme_seat seat;
    for (int acknowledged = 0; acknowledged < 2; acknowledged++) {
        make(2, 4);
        die(0, INSIDE);
        EXPECT(rme_reap(path, 0, NULL, NULL), 0);
        for (int k = 0; k < 3; k++) {
            pid_t child = fork();
            if (child == 0) {
                EXPECT(rme_attach(&seat, path, 0), 0);
                EXPECT(rme_reaped(&seat), acknowledged && k == 2 ? 0 : RME_FOUND_INSIDE);
                EXPECT(rme_crashed(&seat), k > 0);
                if (acknowledged && k == 1) {
                    EXPECT(rme_acknowledge(&seat), 0);
                    EXPECT(rme_reaped(&seat), 0);
                }
                kill(getpid(), SIGKILL);
            }
            int status = 0;
            waitpid(child, &status, 0);
            EXPECT(WIFSIGNALED(status), true);
        }
        EXPECT(rme_attach(&seat, path, 0), 0);
        EXPECT(rme_reaped(&seat), acknowledged ? 0 : RME_FOUND_INSIDE);
        EXPECT(rme_detach(&seat), 0);
        EXPECT(rme_attach(&seat, path, 0), 0);
        EXPECT(rme_reaped(&seat), 0);
    }
}

static const struct test tests[] = {
    TEST(calls_without_an_attach), TEST(create_says_its_limits), TEST(looking_changes_nothing), TEST(two_threads_on_one_seat),
    TEST(seat_in_a_child_of_fork), TEST(calls_after_a_timeout), TEST(recover_that_finds_inside), TEST(mailbox_that_is_full),
    TEST(attach_twice_into_one_struct), TEST(null_pointers), TEST(shorten_while_it_is_mapped), TEST(messages_of_each_width),
    TEST(board_of_whole_words), TEST(data_of_each_size), TEST(numbers_that_are_spent), TEST(copy_of_a_seat), TEST(mode_and_group),
    TEST(attach_by_descriptor), TEST(notice_of_a_reaping),
};

int main(int count, char **word) { return run_tests(count, word, tests, sizeof tests / sizeof *tests); }
