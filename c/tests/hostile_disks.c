/* Cases of hostile_test: disks that are full or may only be read, and limits. */
#define _GNU_SOURCE
#include "hostile.h"

#include <errno.h>
#include <fcntl.h>
#include <sched.h>
#include <signal.h>
#include <stdio.h>
#include <stdlib.h>
#include <string.h>
#include <sys/mount.h>
#include <sys/resource.h>
#include <sys/stat.h>
#include <unistd.h>

/* A small file system, which this process alone sees. */
static void mount_small(void)
{
    if (unshare(CLONE_NEWNS) || mount(NULL, "/", NULL, MS_REC | MS_PRIVATE, NULL) || mount("none", folder, "tmpfs", 0, "size=64k"))
        fail("mount (--no-mount leaves this case out)", errno);
}

void full_disk(uint64_t which)
{
    (void)which;
    mount_small();
    new_file(0);
    expect("create of too much", rme_create(path, PROCS, 65536, 8, 0), EEXIST);
    char name[sizeof path];
    snprintf(name, sizeof name, "%s", path);
    snprintf(path + strlen(path), 8, ".more");
    expect("create on a full disk", rme_create(path, PROCS, 65536, 8, 0), ENOSPC);
    if (entries_of(folder) != 1)
        fail("a create on a full disk leaves a file", (int64_t)entries_of(folder));
    const int filler = open(path, O_WRONLY | O_CREAT | O_CLOEXEC, 0600);
    char bytes[4096] = {1};
    while (write(filler, bytes, sizeof bytes) > 0)
        ;
    snprintf(path, sizeof path, "%s", name);
    expect("create where a file is, on a full disk", rme_create(path, PROCS, CAP, WIDTH, 0), EEXIST);
    every_call();
    if (entries_of(folder) != 2)
        fail("a call on a full disk leaves a file", (int64_t)entries_of(folder));
}

void read_only(uint64_t which)
{
    struct rme_seat seat;
    (void)which;
    mount_small();
    new_file(0);
    if (mount(NULL, folder, NULL, MS_REMOUNT | MS_RDONLY, NULL))
        fail("remount (--no-mount leaves this case out)", errno);
    expect("attach", rme_attach(&seat, path, 0), EROFS);
    expect("create where a file is", rme_create(path, PROCS, CAP, WIDTH, 0), EEXIST);
    expect("inspect", rme_inspect(&seat, path), 0);
    struct rme_message read[4];
    if (rme_read_from(&seat, 0, read, 4) != 2)
        fail("messages of a file that is looked at", 0);
    every_seat_call(&seat);
    expect("detach", rme_detach(&seat), 0);
    every_call();
    snprintf(path + strlen(path), 8, ".more");
    expect("create on a read-only disk", rme_create(path, PROCS, CAP, WIDTH, 0), EROFS);
}

void file_too_big(uint64_t which)
{
    const struct rlimit most = {8192, 8192};
    (void)which;
    unlink(path);
    signal(SIGXFSZ, SIG_IGN);
    if (setrlimit(RLIMIT_FSIZE, &most))
        fail("setrlimit", errno);
    expect("create past the limit of a file", rme_create(path, PROCS, CAP, WIDTH, 0), EFBIG);
    if (entries_of(folder) != 0)
        fail("a create past the limit leaves a file", 0);
}

void no_descriptors(uint64_t which)
{
    struct rme_seat seat;
    (void)which;
    new_file(0);
    const struct rlimit most = {0, 0};
    if (setrlimit(RLIMIT_NOFILE, &most))
        fail("setrlimit", errno);
    expect("attach", rme_attach(&seat, path, 0), EMFILE);
    expect("inspect", rme_inspect(&seat, path), EMFILE);
    expect("reap", rme_reap(path, 0, NULL, NULL), EMFILE);
    expect_one_of("create", rme_create(path, PROCS, CAP, WIDTH, 0), (const int[]){EMFILE, EEXIST, 0});
}

void no_permission(uint64_t which)
{
    struct rme_seat seat;
    (void)which;
    new_file(0);
    if (chmod(path, 0444) || chmod(folder, 0755) || (geteuid() == 0 && seteuid(65534)))
        fail("a file that may only be read", errno);
    expect("attach", rme_attach(&seat, path, 0), EACCES);
    expect("inspect", rme_inspect(&seat, path), 0);
    every_seat_call(&seat);
    expect("detach", rme_detach(&seat), 0);
    every_call();
}

/* Copies the file so that nothing but its header is stored. */
static void copy_sparsely(const char *name)
{
    struct rme_header header;
    const int from = open(path, O_RDONLY | O_CLOEXEC), to = open(name, O_RDWR | O_CREAT | O_CLOEXEC, 0600);
    if (from < 0 || to < 0 || read(from, &header, sizeof header) != (ssize_t)sizeof header ||
        write(to, &header, sizeof header) != (ssize_t)sizeof header || ftruncate(to, (off_t)length_of()))
        fail("a sparse copy", errno);
    close(from);
    close(to);
}

static void fill_the_disk(void)
{
    char name[sizeof path + 8], bytes[4096] = {1};
    snprintf(name, sizeof name, "%s.more", path);
    const int filler = open(name, O_WRONLY | O_CREAT | O_CLOEXEC, 0600);
    while (write(filler, bytes, sizeof bytes) > 0)
        ;
    close(filler);
}

/* What is touched in a hole gets room, or else the file is refused: nothing ends in SIGBUS. */
void copy_with_holes(uint64_t full)
{
    struct rme_seat seat;
    char name[sizeof path + 8];
    mount_small();
    new_file(64);
    snprintf(name, sizeof name, "%s.copy", path);
    copy_sparsely(name);
    if (full)
        fill_the_disk();
    snprintf(path + strlen(path), 8, ".copy");
    expect("inspect of a copy", rme_inspect(&seat, path), full ? ENOSPC : 0);
    if (!full) {
        every_seat_call(&seat);
        expect("detach", rme_detach(&seat), 0);
    }
    expect("attach to a copy", rme_attach(&seat, path, 0), full ? ENOSPC : 0);
    expect("reap of a copy", rme_reap(path, 1, NULL, NULL), full ? ENOSPC : ESRCH);
    if (full)
        return;
    fill_the_disk();
    every_seat_call(&seat);
    memset(rme_data(&seat, NULL), 1, 64);
    expect_one_of("detach", rme_detach(&seat), (const int[]){EBUSY, 0});
    every_call();
}
