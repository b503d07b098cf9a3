/* The file that processes share: making and opening it, and which process holds which index. */
#include "shim.h"

#include <limits.h>
#include <stdio.h>
#include <stdlib.h>
#include <string.h>
#include <sys/mman.h>
#include <sys/stat.h>

_Static_assert(sizeof(struct rme_header) <= PAGE && 64 * LINE * 8 <= PAGE, "the header lies in a page, and so do all lines");

/* ---- making it ---- */

/* Whether a file without a name can get one: that goes through /proc. */
static bool can_be_named(void) { return access("/proc/self/fd", X_OK) == 0; }

/* Opens a new file in the path's folder, without a name; or, where the file system can't do that or /proc is not mounted, under the
 * temporary name that `name` gets. */
static int open_unnamed(const char *path, char name[PATH_MAX])
{
    const char *slash = strrchr(path, '/');
    if (strlen(path) + sizeof ".XXXXXX" > PATH_MAX)
        return errno = ENAMETOOLONG, -1;
    snprintf(name, PATH_MAX, "%.*s.", slash ? (int)(slash - path) + 1 : 0, path);
    int file = can_be_named() ? open(name, O_TMPFILE | O_RDWR | O_CLOEXEC, 0600) : (errno = EOPNOTSUPP, -1);
    *name = 0;
    if (file >= 0 || (errno != EOPNOTSUPP && errno != EISDIR))
        return file;
    snprintf(name, PATH_MAX, "%s.XXXXXX", path);
    return mkostemp(name, O_CLOEXEC);
}

/* Writes the file, then sets its mode and group, and last links it to its name, unless that exists. */
static int fill(int file, const char *name, const char *path, const struct rme_header *header, const void *data, mode_t mode,
                gid_t group)
{
    char descriptor[32];
    snprintf(descriptor, sizeof descriptor, "/proc/self/fd/%d", file);
    int error = posix_fallocate(file, 0, (off_t)(data_offset(header->words, header->procs) + header->data_bytes));
    if (error)
        return error;
    if (pwrite(file, header, sizeof *header, 0) != (ssize_t)sizeof *header)
        return EIO;
    if (data && pwrite(file, data, header->data_bytes, (off_t)data_offset(header->words, header->procs)) != (ssize_t)header->data_bytes)
        return EIO;
    if ((group != (gid_t)-1 && fchown(file, (uid_t)-1, group)) || fchmod(file, mode))
        return errno;
    return linkat(AT_FDCWD, *name ? name : descriptor, AT_FDCWD, path, AT_SYMLINK_FOLLOW) ? errno : 0;
}

int rme_create_with(const char *path, uint64_t procs, uint64_t cap, uint64_t width, const void *data, uint64_t data_bytes, mode_t mode,
                    gid_t group)
{
    WITHOUT_CANCELLATION;
    const struct rme_header header = {
        .magic = RME_MAGIC, .format = RME_FORMAT, .header = RME_HEADER, .words = rme_words(procs, cap, width),
        .procs = procs, .cap = cap, .width = width, .limit = RME_LIMIT, .data_bytes = data_bytes,
    };
    char name[PATH_MAX];
    struct stat there;
    if (!path || header.words == 0 || (mode & ~(mode_t)0777) || (mode & 0600) != 0600)
        return EINVAL;
    if (data_bytes > RME_LIMIT)
        return EFBIG;
    if (lstat(path, &there) == 0)
        return EEXIST;
    int file = open_unnamed(path, name);
    if (file < 0)
        return errno;
    int error = fill(file, name, path, &header, data, mode, group);
    if (*name)
        unlink(name);
    close(file);
    return error;
}

int rme_create_as(const char *path, uint64_t procs, uint64_t cap, uint64_t width, uint64_t data_bytes, mode_t mode, gid_t group)
{
    return rme_create_with(path, procs, cap, width, NULL, data_bytes, mode, group);
}

int rme_create(const char *path, uint64_t procs, uint64_t cap, uint64_t width, uint64_t data_bytes)
{
    return rme_create_as(path, procs, cap, width, data_bytes, 0600, (gid_t)-1);
}

/* ---- opening it ---- */

/* Whether the header is one of this library, and the file has the length that it says. */
static int check(const struct rme_header *h, uint64_t length)
{
    if (length < sizeof *h || h->magic != RME_MAGIC)
        return EBADMSG;
    bool fits = h->format == RME_FORMAT && h->header == RME_HEADER && h->limit == RME_LIMIT && h->data_bytes <= RME_LIMIT &&
                h->words != 0 && h->words == rme_words(h->procs, h->cap, h->width) &&
                length == data_offset(h->words, h->procs) + h->data_bytes;
    return fits ? 0 : EPROTO;
}

/* A copy may have holes: on a full disk an access there would end in SIGBUS. */
static int fill_holes(const struct rme_seat *s, const struct stat *status, int protection)
{
    if ((uint64_t)status->st_blocks * 512 >= s->length)
        return 0;
    if (protection & PROT_WRITE)
        return fallocate(s->file, 0, 0, status->st_size) && errno != EOPNOTSUPP && errno != ENOSYS ? errno : 0;
    return madvise(s->header, s->length, MADV_POPULATE_READ) && errno != EINVAL ? ENOSPC : 0;
}

static int map(struct rme_seat *s, const struct stat *status, int protection)
{
    struct rme_header h = {0};
    if (S_ISREG(status->st_mode) && pread(s->file, &h, sizeof h, 0) < 0)
        return errno;
    s->length = (uint64_t)status->st_size;
    int error = check(&h, s->length);
    if (error)
        return error;
    void *start = mmap(NULL, s->length, protection, MAP_SHARED, s->file, 0);
    if (start == MAP_FAILED)
        return errno;
    s->header = start;
    s->lines = (uint64_t *)start + PAGE / 8;
    s->words = (uint64_t *)start + 2 * PAGE / 8;
    s->count = h.words;
    s->data_bytes = h.data_bytes;
    error = fill_holes(s, status, protection);
    return error ? error : rme_init(&s->machine, h.procs, h.cap, h.width, h.limit, 0) ? EPROTO : 0;
}

/* Maps a page of the seat's own, which reads 0 in a child of fork. */
static int wiped_on_fork(struct rme_seat *s)
{
    void *page = mmap(NULL, PAGE, PROT_READ | PROT_WRITE, MAP_PRIVATE | MAP_ANONYMOUS, -1, 0);
    if (page == MAP_FAILED)
        return errno;
    s->state = page;
    return madvise(page, PAGE, MADV_WIPEONFORK) ? errno : 0;
}

/* The seat is cleared first, for a signal handler that calls rme_interrupt. */
void rme_close_seat(struct rme_seat *s)
{
    const struct rme_seat was = *s;
    const bool ours = rme_check_file(s) == 0;
    *s = (struct rme_seat){.file = -1};
    __atomic_signal_fence(__ATOMIC_SEQ_CST);
    if (was.header)
        munmap(was.header, was.length);
    if (was.state)
        munmap(was.state, PAGE);
    if (ours)
        close(was.file);
}

int rme_open_seat(struct rme_seat *s, const char *path, int access)
{
    struct stat status = {0};
    if (!s || !path)
        return EINVAL;
    *s = (struct rme_seat){.self = s, .file = open(path, access | O_CLOEXEC | O_NONBLOCK | O_NOCTTY)};
    int error = s->file < 0 || fstat(s->file, &status) ? errno : 0;
    if (!error) {
        s->device = status.st_dev;
        s->inode = status.st_ino;
        error = map(s, &status, access == O_RDWR ? PROT_READ | PROT_WRITE : PROT_READ);
    }
    if (!error && access == O_RDWR)
        error = wiped_on_fork(s);
    if (error)
        rme_close_seat(s);
    return error;
}

/* ---- who has an index ---- */

/* Locks of the open file, on two bytes for each index. The system releases them when the last process that shares the open file ends,
 * however it ends. A living process has both bytes of its index, a reaper the first of them. */
static struct flock lease_of(uint64_t index, short type, int bytes)
{
    return (struct flock){.l_type = type, .l_whence = SEEK_SET, .l_start = (off_t)(2 * index), .l_len = bytes};
}

/* A program may have closed the descriptor, and its number may belong to another file now, or to the same file opened again: then the
 * seat's own lease shows as that of another open file. */
int rme_check_file(const struct rme_seat *s)
{
    struct flock own = lease_of(s->machine.index, F_WRLCK, BOTH_BYTES);
    struct stat now;
    if (s->file < 0 || fstat(s->file, &now))
        return EBADF;
    if (now.st_dev != s->device || now.st_ino != s->inode)
        return EBADF;
    if (is_attached(s) && (fcntl(s->file, F_OFD_GETLK, &own) || own.l_type != F_UNLCK))
        return EBADF;
    return 0;
}

int rme_lease(int file, uint64_t index, short type, int bytes)
{
    struct flock wanted = lease_of(index, type, bytes);
    return fcntl(file, F_OFD_SETLK, &wanted) == 0 ? 0 : errno == EAGAIN ? EBUSY : errno;
}

int rme_life_of(const struct rme_seat *s, uint64_t index, int *life)
{
    struct flock other = lease_of(index, F_WRLCK, BOTH_BYTES);
    int error = rme_check_file(s);
    if (error)
        return error;
    if (fcntl(s->file, F_OFD_GETLK, &other))
        return errno;
    const bool both = other.l_start + other.l_len > (off_t)(2 * index + 1);
    *life = other.l_type == F_UNLCK ? RME_ABSENT : both ? RME_ALIVE : RME_IN_REAPING;
    return 0;
}

/* Takes the lease, and waits for a reaper that acts for the index. */
static int lease_within(const struct rme_seat *s, uint64_t index, uint64_t milliseconds)
{
    const struct timespec nap = {0, 1000000};
    int life = RME_ABSENT, error;
    for (uint64_t passed = 0; (error = rme_lease(s->file, index, F_WRLCK, BOTH_BYTES)) == EBUSY && milliseconds > 0; passed++) {
        error = rme_life_of(s, index, &life);
        if (error || life == RME_ALIVE)
            return error ? error : EBUSY;
        if (passed == milliseconds)
            return ETIMEDOUT;
        nanosleep(&nap, NULL);
    }
    return error;
}

void rme_become(struct rme_seat *s, uint64_t index, bool crashed)
{
    const struct rme_process m = s->machine;
    rme_init(&s->machine, m.procs, m.cap, m.width, m.limit, index);
    s->crashed = crashed;
    s->blocked_at = NULL;
    if (crashed)
        rme_crash(&s->machine);
    for (uint64_t place = 0; place < 3 * m.procs; place += 3) /* it may have been killed asleep */
        __atomic_fetch_and(sleepers_on(s, place), ~own_bit(s), __ATOMIC_SEQ_CST);
}

/* Takes the index, if the file still has this name. */
static int take(struct rme_seat *s, const char *path, uint64_t index, uint64_t milliseconds)
{
    struct stat named;
    if (index >= s->machine.procs)
        return EINVAL;
    int error = lease_within(s, index, milliseconds);
    if (error)
        return error;
    if (stat(path, &named))
        return errno;
    if (s->device != named.st_dev || s->inode != named.st_ino)
        return ESTALE;
    const uint64_t mark = load(&s->header->marks[index]);
    s->reaped = rme_reaped_of(s, index);
    store(&s->header->marks[index], RME_ATTACHED + RME_REAPED * (uint64_t)s->reaped);
    store(line_of(s, index) + PID, (uint64_t)getpid());
    rme_become(s, index, mark & RME_ATTACHED);
    *s->state = FREE;
    return 0;
}

int rme_attach_within(struct rme_seat *s, const char *path, uint64_t index, uint64_t milliseconds)
{
    WITHOUT_CANCELLATION;
    int error = rme_open_seat(s, path, O_RDWR);
    if (error)
        return error;
    error = take(s, path, index, milliseconds);
    if (error)
        rme_close_seat(s);
    return error;
}

int rme_attach(struct rme_seat *s, const char *path, uint64_t index) { return rme_attach_within(s, path, index, 0); }

/* It is opened anew through /proc, so that the open file, and with it the lease, is the seat's own. */
int rme_attach_file(struct rme_seat *s, int file, uint64_t index, uint64_t milliseconds)
{
    char name[32];
    snprintf(name, sizeof name, "/proc/self/fd/%d", file);
    return fcntl(file, F_GETFD) < 0 ? EBADF : rme_attach_within(s, name, index, milliseconds);
}

/* At rest the index is given back. Otherwise this counts as a crash, like any other end of the process. */
int rme_detach(struct rme_seat *s)
{
    WITHOUT_CANCELLATION;
    if (!is_open(s) || s->file < 0)
        return EINVAL;
    int error = is_attached(s) ? rme_begin_call(s) : 0;
    if (error == EBUSY)
        return error;
    const bool looks = !s->state, mine = is_attached(s) && !error;
    if (mine && rests(s)) {
        store(line_of(s, s->machine.index) + PID, 0);
        store(&s->header->marks[s->machine.index], 0);
    } else if (!looks) {
        error = mine ? EBUSY : EINVAL;
    }
    rme_close_seat(s);
    return error;
}
