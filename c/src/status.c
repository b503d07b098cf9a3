/* The state of a file, and texts. No call here changes a word, and no process needs one to go on. */
#include "shim.h"

#include <string.h>

int rme_inspect(struct rme_seat *s, const char *path)
{
    WITHOUT_CANCELLATION;
    return rme_open_seat(s, path, O_RDONLY);
}

int rme_file_status(const struct rme_seat *s, struct rme_file *status)
{
    if (!is_open(s) || !status)
        return EINVAL;
    *status = (struct rme_file){
        .procs = s->machine.procs, .cap = s->machine.cap, .width = s->machine.width, .limit = s->machine.limit,
        .words = s->count, .data_bytes = s->data_bytes,
        .count = load(s->words + 2), .closed = load(s->words + 1), .ruined = load(s->words),
    };
    return 0;
}

/* The restart table. */
static int row_of(uint64_t choosing, uint64_t number, uint64_t inside)
{
    if (choosing > 1 || inside > 1 || (choosing && inside))
        return 0;
    if (inside)
        return number ? RME_FOUND_INSIDE : RME_FOUND_LEFT;
    return number ? RME_FOUND_WAITING : choosing ? RME_FOUND_DOORWAY : RME_FOUND_IDLE;
}

/* Marks that no reaper leaves count as none. */
static int found_of(uint64_t number) { return number >= RME_FOUND_IDLE && number <= RME_FOUND_INSIDE ? (int)number : 0; }

/* The furthest place that reapers have found and released. One that a reaper has only begun counts once the words are past it. */
int rme_reaped_of(const struct rme_seat *s, uint64_t index)
{
    const uint64_t mark = load(&s->header->marks[index]), *line = line_of(s, index);
    const int done = found_of(mark / RME_REAPED % 256), begun = found_of(mark / RME_BEGUN);
    const int stands = row_of(load(line), load(line + 1), load(line + 2));
    const bool passed = begun == RME_FOUND_INSIDE ? stands != RME_FOUND_INSIDE : stands == RME_FOUND_IDLE || stands == RME_FOUND_LEFT;
    return passed && begun > done ? begun : done;
}

int rme_index_status(const struct rme_seat *s, uint64_t index, struct rme_index *status)
{
    if (!is_open(s) || !status || index >= s->machine.procs)
        return EINVAL;
    const uint64_t *line = s->lines + index * LINE, mark = load(&s->header->marks[index]);
    int life = RME_ALIVE, error = s->state && index == s->machine.index ? 0 : rme_life_of(s, index, &life);
    *status = (struct rme_index){.choosing = load(line), .number = load(line + 1), .inside = load(line + 2)};
    status->found = row_of(status->choosing, status->number, status->inside);
    status->life = life == RME_ABSENT && mark & RME_ATTACHED ? RME_DEAD : life;
    status->reaped = rme_reaped_of(s, index);
    status->pid = (int64_t)load(line + PID);
    status->entries = load(line + ENTRIES);
    status->waits = load(line + WAITS);
    return error;
}

int64_t rme_pid(const struct rme_seat *s, uint64_t index)
{
    struct rme_index status;
    return rme_index_status(s, index, &status) == 0 && status.life == RME_ALIVE ? status.pid : 0;
}

uint64_t rme_copy_words(const struct rme_seat *s, uint64_t *words, uint64_t room)
{
    if (!is_open(s) || !words)
        return 0;
    const uint64_t locks = 3 * s->machine.procs, count = room < s->count ? room : s->count;
    for (uint64_t i = 0; i < count; i++)
        words[i] = load(i < locks ? lock_word(s, i) : s->words + (i - locks));
    return count;
}

bool rme_crashed(const struct rme_seat *s) { return s && s->crashed; }
int rme_reaped(const struct rme_seat *s) { return s ? s->reaped : 0; }

int rme_acknowledge(struct rme_seat *s)
{
    const int error = rme_begin_call(s);
    if (error)
        return error;
    if (s->machine.index >= s->machine.procs || s->machine.procs > MOST_PROCS)
        return rme_end_call(s, EINVAL);
    store(&s->header->marks[s->machine.index], RME_ATTACHED);
    s->reaped = 0;
    return rme_end_call(s, 0);
}

/* The count first, then the entries below it: these no longer change. */
uint64_t rme_read_from(const struct rme_seat *s, uint64_t place, struct rme_message *messages, uint64_t room)
{
    if (!is_open(s) || !messages)
        return 0;
    const struct rme_process *m = &s->machine;
    uint64_t count = load(s->words + 2), copied = 0;
    for (; place < count && place < m->cap && copied < room; place++, copied++) {
        const uint64_t *entry = s->words + 10 + m->width + m->procs + (2 + m->width) * place;
        messages[copied] = (struct rme_message){.sender = load(entry), .number = load(entry + 1)};
        for (uint64_t j = 0; j < m->width; j++)
            messages[copied].value[j] = load(entry + 2 + j);
    }
    return copied;
}

void *rme_data(const struct rme_seat *s, size_t *bytes)
{
    bool some = is_open(s) && s->data_bytes;
    if (bytes)
        *bytes = some ? s->data_bytes : 0;
    return some ? (char *)s->header + data_offset(s->count, s->machine.procs) : NULL;
}

int rme_blocker(struct rme_seat *s, uint64_t *index, bool *alive)
{
    struct rme_access blocked;
    int life = RME_ABSENT, error = rme_begin_call(s);
    if (error)
        return error;
    error = rme_next(&s->machine, &blocked) ? EINVAL : rme_life_of(s, blocked.place / 3, &life);
    if (!error && alive)
        *alive = life != RME_ABSENT;
    if (!error && index)
        *index = blocked.place / 3;
    return rme_end_call(s, error);
}

const char *rme_strerror(int error)
{
    switch (error) {
    case 0: return "done";
    case EOWNERDEAD: return "the owner died inside: mend, then call rme_consistent";
    case ENOTRECOVERABLE: return "the lock is ruined";
    case EOVERFLOW: return "the numbers of the lock are spent";
    case ETIMEDOUT: return "still blocked";
    case EDEADLK: return "inside already";
    case EPERM: return "not inside";
    case EAGAIN: return "somebody is in the way";
    case EINTR: return "interrupted";
    case EBADF: return "the descriptor is closed, or another file's";
    case EBUSY: return "another process has the index, or another call the seat";
    case EALREADY: return "it is stored, or closed, already";
    case EPIPE: return "the mailbox is closed";
    case EBADMSG: return "no file of this library, or words that break its rules";
    case EPROTO: return "a file of another format or size";
    case ESTALE: return "another file has taken the name";
    case ESRCH: return "no dead process has the index";
    default: return strerror(error);
    }
}

size_t rme_seat_size(void) { return sizeof(struct rme_seat); }
const char *rme_version(void) { return RME_VERSION; }
