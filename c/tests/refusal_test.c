/* What a refusal leaves: no descriptor, no mapping, no file, and no byte of a file changed.
 *
 *     refusal_test FOLDER [NAME] */
#define _GNU_SOURCE
#include "test.h"

#include <dirent.h>
#include <limits.h>

enum { DATA_BYTES = 1000 };

static void make_with_data(uint64_t procs)
{
    unlink(path);
    EXPECT(rme_create(path, procs, 4, 1, DATA_BYTES), 0);
}

static int repair(struct rme_seat *dead, uint64_t index, void *data, size_t bytes, void *context)
{
    (void)dead, (void)index, (void)data, (void)context;
    EXPECT(bytes, DATA_BYTES);
    return 0;
}

static int lose(struct rme_seat *dead, uint64_t index, void *data, size_t bytes, void *context)
{
    (void)dead, (void)index, (void)data, (void)bytes;
    return *(int *)context;
}

struct effects { unsigned descriptors, mappings, names; uint64_t bytes; };

static unsigned entries_of(const char *name)
{
    unsigned count = 0;
    DIR *all = opendir(name);
    EXPECT(all != NULL, true);
    while (readdir(all))
        count++;
    closedir(all);
    return count;
}

/* Lines of the file and pages that are wiped on fork, of which each seat has one. */
static unsigned mappings(void)
{
    static char line[8192];
    unsigned count = 0;
    FILE *all = fopen("/proc/self/smaps", "re");
    while (fgets(line, sizeof line, all))
        count += strstr(line, path) != NULL || (strncmp(line, "VmFlags:", 8) == 0 && strstr(line, " wf") != NULL);
    fclose(all);
    return count;
}

static struct effects effects(void)
{
    static unsigned char bytes[1 << 16];
    int file = open(path, O_RDONLY | O_CLOEXEC);
    ssize_t length = file < 0 ? 0 : read(file, bytes, sizeof bytes);
    if (file >= 0)
        close(file);
    uint64_t hash = UINT64_C(14695981039346656037);
    for (ssize_t i = 0; i < length; i++)
        hash = (hash ^ bytes[i]) * UINT64_C(1099511628211);
    return (struct effects){entries_of("/proc/self/fd"), mappings(), entries_of(folder), hash};
}

static void refuses(int line, const char *what, struct effects before)
{
    const struct effects after = effects();
    expect_at(line, what, (long)after.descriptors, (long)before.descriptors);
    expect_at(line, what, (long)after.mappings, (long)before.mappings);
    expect_at(line, what, (long)after.names, (long)before.names);
    expect_at(line, what, after.bytes == before.bytes, true);
}
/* The call answers this error, and nothing is opened, mapped, made or changed by it. */
#define REFUSES(call, error)                        \
    do {                                            \
        const struct effects before_it = effects(); \
        EXPECT(call, error);                        \
        refuses(__LINE__, #call, before_it);        \
    } while (0)

static void refusals_to_create(void)
{
    char name[PATH_MAX + 8];
    memset(name, 'x', sizeof name - 1);
    name[sizeof name - 1] = 0;
    make_with_data(2);
    REFUSES(rme_create(path, 2, 4, 1, 0), EEXIST);
    unlink(path);
    REFUSES(rme_create(path, 65, 4, 1, 0), EINVAL);
    REFUSES(rme_create(path, 2, 4, 1, UINT64_MAX), EFBIG);
    REFUSES(rme_create_as(path, 2, 4, 1, 0, 01600, (gid_t)-1), EINVAL);
    REFUSES(rme_create_as(path, 2, 4, 1, 0, 0400, (gid_t)-1), EINVAL);
    REFUSES(rme_create(name, 2, 4, 1, 0), ENAMETOOLONG);
    if (geteuid() != 0)
        REFUSES(rme_create_as(path, 2, 4, 1, 0, 0600, 0), EPERM);
}

static void refusals_to_attach(void)
{
    struct rme_seat seat, living;
    make_with_data(2);
    EXPECT(rme_attach(&living, path, 0), 0);
    REFUSES(rme_attach(&seat, path, 0), EBUSY);
    REFUSES(rme_attach_within(&seat, path, 0, 2), EBUSY);
    REFUSES(rme_attach(&seat, path, 2), EINVAL);
    REFUSES(rme_attach(&seat, path, UINT64_MAX), EINVAL);
    REFUSES(rme_attach_file(&seat, living.file, 0, 0), EBUSY);
    REFUSES(rme_attach_file(&seat, 999, 0, 0), EBADF);
    REFUSES(rme_attach(&seat, other_path, 0), ENOENT);
    REFUSES(rme_inspect(&seat, other_path), ENOENT);
    REFUSES(rme_attach(&seat, "/proc/self/exe", 0), getuid() == 0 ? ETXTBSY : EACCES);
    REFUSES(rme_inspect(&seat, "/proc/self/exe"), EBADMSG);
    EXPECT(rme_detach(&living), 0);
    EXPECT(truncate(path, 12000), 0);
    REFUSES(rme_attach(&seat, path, 0), EPROTO);
    REFUSES(rme_inspect(&seat, path), EPROTO);
    REFUSES(rme_reap(path, 0, repair, NULL), EPROTO);
    REFUSES(rme_reap_all(path, repair, NULL, NULL), EPROTO);
    REFUSES(rme_detach(&seat), EINVAL);
}

static void refusals_to_reap(void)
{
    struct rme_seat seat;
    int lost = EINTR;
    make_with_data(3);
    EXPECT(rme_attach(&seat, path, 1), 0);
    REFUSES(rme_reap(path, 0, repair, NULL), ESRCH);
    REFUSES(rme_reap(path, 1, repair, NULL), EBUSY);
    REFUSES(rme_reap(path, 3, repair, NULL), EINVAL);
    REFUSES(rme_reap_all(path, repair, NULL, NULL), 0);
    die(0, INSIDE);
    const struct effects before = effects();
    EXPECT(rme_lock_reaping(&seat, 3, lose, &lost), EINTR);
    EXPECT(rme_reap(path, 0, lose, &lost), EINTR);
    EXPECT(rme_reap(path, 0, repair, NULL), 0);
    EXPECT(rme_lock(&seat), 0);
    REFUSES(rme_lock(&seat), EDEADLK);
    REFUSES(rme_trylock(&seat), EDEADLK);
    REFUSES(rme_consistent(&seat), EINVAL);
    EXPECT(rme_unlock(&seat), 0);
    REFUSES(rme_unlock(&seat), EPERM);
    REFUSES(rme_withdraw(&seat), EINVAL);
    const struct effects after = effects();
    EXPECT(after.descriptors == before.descriptors && after.mappings == before.mappings && after.names == before.names, true);
}

static const struct test tests[] = {TEST(refusals_to_create), TEST(refusals_to_attach), TEST(refusals_to_reap)};

int main(int count, char **word) { return run_tests(count, word, tests, sizeof tests / sizeof *tests); }
