/* Real processes over one log, which really die.
 *
 *     log_torture FOLDER SENDERS MESSAGES CAP MESSAGES-PER-KILL SEED [drop]
 *
 * Each sender sends MESSAGES messages, through segments of CAP. Two named readers read all of them. All are killed by SIGKILL at random and
 * started again, one for each MESSAGES-PER-KILL messages or so; each goes on with nothing but the log. A sender sends its last message
 * again. With `drop` a third kind drops what both readers have passed, and is killed too. A reader sees each message of a sender once and
 * in order, but for those since it kept its cursor last, which it sees once more. What stands in the segments at the end is for
 * log-judge. */
#define _GNU_SOURCE
#include "rme_log.h"
#include "torment.h"

#include <errno.h>
#include <poll.h>
#include <stdatomic.h>
#include <string.h>
#include <sys/mman.h>

enum { MOST = 64, READERS = 2, BATCH = 64 };

/* What a reader has seen: the last number of each sender. It outlives a kill, as the reader's own effects would. */
struct seen {
    _Atomic uint64_t last[MOST], again;
};
struct tally {
    struct seen seen[READERS];
    _Atomic uint64_t sent, already, drops, polls;
};

static const char *folder;
static uint64_t senders, messages;
static double messages_per_kill;
static struct tally *tally;

/* In a process that is started again: a status of its own. */
static void expect(const char *what, int got, int wanted, int status)
{
    if (got == wanted)
        return;
    fprintf(stderr, "log_torture: %s: %s, wanted %s\n", what, rme_log_strerror(got), rme_log_strerror(wanted));
    _exit(status);
}

static uint64_t value_of(uint64_t sender, uint64_t number, uint64_t j) { return sender * 1000003 + number * 7 + j + 1; }

/* ---- processes ---- */

static void send(uint64_t sender)
{
    static struct rme_log log;
    uint64_t next = 0;
    expect("open", rme_log_open(&log, folder, sender, 10000), 0, 2);
    expect("next", rme_log_next(&log, &next), 0, 3);
    for (uint64_t number = next > 1 ? next - 1 : 1; number <= messages; number++) {
        const uint64_t value[2] = {value_of(sender, number, 0), value_of(sender, number, 1)};
        expect("append", rme_log_append(&log, number, value), number < next ? EALREADY : 0, 4);
        tally->already += number < next;
        tally->sent++;
    }
    expect("close", rme_log_close(&log), 0, 5);
}

static void check(struct seen *seen, const struct rme_message *m, bool may_repeat)
{
    const bool right = m->sender < senders && m->value[0] == value_of(m->sender, m->number, 0) &&
                       m->value[1] == value_of(m->sender, m->number, 1);
    const uint64_t last = right ? seen->last[m->sender] : 0;
    if (!right || m->number > last + 1 || (m->number <= last && !may_repeat)) {
        fprintf(stderr, "log_torture: message %" PRIu64 " of %" PRIu64 " after %" PRIu64 "\n", m->number, m->sender, last);
        _exit(6);
    }
    seen->again += m->number <= last;
    if (m->number > last)
        seen->last[m->sender] = m->number;
}

static uint64_t messages_seen(uint64_t r)
{
    uint64_t all = 0;
    for (uint64_t p = 0; p < senders; p++)
        all += tally->seen[r].last[p];
    return all;
}

/* The first reader sleeps by rme_log_wait, the second by poll. */
static void wait_for(struct rme_log_reader *reader, int event)
{
    struct pollfd polled = {.fd = event, .events = POLLIN};
    uint64_t times;
    if (event < 0) {
        int error = rme_log_wait(reader, 1000);
        expect("wait", error, error == ETIMEDOUT ? ETIMEDOUT : 0, 7);
    } else if (poll(&polled, 1, 1000) > 0 && read(event, &times, sizeof times) == sizeof times) {
        tally->polls++;
    }
}

static const char *const names[READERS] = {"one", "two"};

/* The log knows the readers before anybody drops: one that comes later begins at what is left. */
static void make_readers(void)
{
    static struct rme_log_reader reader;
    for (int r = 0; r < READERS; r++) {
        expect("first open of a reader", rme_log_reader_open(&reader, folder, names[r]), 0, 1);
        expect("first close of a reader", rme_log_reader_close(&reader), 0, 1);
    }
}

static void read_all(uint64_t r)
{
    static struct rme_log_reader reader;
    static struct rme_message m[BATCH];
    uint64_t count = 0;
    int event = -1;
    expect("open of a reader", rme_log_reader_open(&reader, folder, names[r]), 0, 8);
    if (r > 0)
        expect("event", rme_log_event(&reader, &event), 0, 9);
    for (bool may_repeat = true;; may_repeat = false) { /* the batch that was not kept may come again */
        expect("read", rme_log_read(&reader, m, BATCH, &count), 0, 10);
        for (uint64_t i = 0; i < count; i++)
            check(&tally->seen[r], &m[i], may_repeat);
        if (count > 0)
            expect("keep", rme_log_keep(&reader), 0, 11);
        else if (messages_seen(r) < senders * messages)
            wait_for(&reader, event);
        else
            break;
    }
    expect("close of a reader", rme_log_reader_close(&reader), 0, 12);
}

/* Until only the last segment is left, and both readers have passed all before it. */
static void drop(void)
{
    struct rme_log_state state = {0};
    do {
        nap(0.002);
        expect("drop", rme_log_drop(folder, UINT64_MAX, NULL), 0, 13);
        expect("status", rme_log_status(folder, &state), 0, 14);
        tally->drops++;
    } while (state.messages < senders * messages || state.first < state.last);
}

static pid_t begin(uint64_t p)
{
    pid_t child = fork();
    if (child != 0)
        return child;
    alarm(600);
    if (p < senders)
        send(p);
    else if (p < senders + READERS)
        read_all(p - senders);
    else
        drop();
    _exit(0);
}

/* Until some messages more are sent, or, where none are, for a twentieth of a second. */
static void pause_between_kills(void)
{
    const uint64_t more = (uint64_t)(drand48() * 2 * messages_per_kill), before = tally->sent;
    for (int times = 0; tally->sent - before < more && times < 200; times++)
        nap(0.00025);
}

int main(int count, char **word)
{
    if (count < 7)
        return 2;
    folder = word[1];
    senders = strtoull(word[2], NULL, 10);
    messages = strtoull(word[3], NULL, 10);
    messages_per_kill = atof(word[5]);
    srand48(atol(word[6]));
    const bool drops = count > 7 && strcmp(word[7], "drop") == 0;
    tally = mmap(NULL, sizeof *tally, PROT_READ | PROT_WRITE, MAP_SHARED | MAP_ANONYMOUS, -1, 0);
    if (senders < 1 || senders > MOST || messages < 1 || tally == MAP_FAILED)
        return 2;
    expect("create", rme_log_create(folder, senders, strtoull(word[4], NULL, 10), 2), 0, 1);
    make_readers();
    struct timespec begun, ended;
    clock_gettime(CLOCK_MONOTONIC, &begun);
    struct torment t = {.program = "log_torture", .begin = begin, .all = senders + READERS + drops};
    torment_begins(&t);
    torment_ends(&t, pause_between_kills);
    clock_gettime(CLOCK_MONOTONIC, &ended);
    struct rme_log_state state;
    expect("status", rme_log_status(folder, &state), 0, 1);
    printf("log_torture senders %" PRIu64 " messages %" PRIu64 " segments %" PRIu64 "..%" PRIu64 " kills %" PRIu64 " already %" PRIu64
           " read again %" PRIu64 " drops %" PRIu64 " events %" PRIu64 " seconds %.1f\n",
           senders, state.messages, state.first, state.last, t.kills, (uint64_t)tally->already,
           (uint64_t)(tally->seen[0].again + tally->seen[1].again), (uint64_t)tally->drops, (uint64_t)tally->polls,
           (double)(ended.tv_sec - begun.tv_sec) + (double)(ended.tv_nsec - begun.tv_nsec) / 1e9);
    const bool whole = state.messages == senders * messages && messages_seen(0) == state.messages && messages_seen(1) == state.messages;
    return !whole || (drops && state.first != state.last);
}
