/* Real processes over one file, which really die.
 *
 *     torture FOLDER SENDERS MESSAGES KILLS-PER-SECOND SEED
 *
 * In turn: files that are not ours; an rme_create that is killed; senders that are killed by SIGKILL and started again,
 * and one that is stopped inside for a second. Each sender goes on with nothing but the file. At the end every message has
 * to stand once and in its sender's order, and no two may have been inside. FOLDER/image gets the words as an image for
 * rmelab, FOLDER/list the messages as rmelab writes them. */
#define _GNU_SOURCE
#include "expect.h"
#include "rme.h"
#include "torment.h"

#include <errno.h>
#include <fcntl.h>
#include <stdatomic.h>
#include <string.h>
#include <sys/mman.h>

enum { WIDTH = 2, MOST = 64 };

/* Beside the file, and no part of the lock. `first` and `second` are counted one after the other, by whoever is inside:
 * one who finds them apart has met another, unless it died between them itself. */
struct tally {
    volatile uint64_t first, second;
    _Atomic uint64_t entries, owner_died, already, overlaps, lingers, inside;
};

static char path[4096];
static uint64_t senders, messages;
static double kills_per_second;
static struct tally *tally;

_Noreturn void fail(const char *what, int64_t error)
{
    fprintf(stderr, "torture: %s: %s\n", what, error ? strerror((int)error) : "wrong");
    exit(1);
}

static uint64_t value_of(uint64_t sender, uint64_t number, uint64_t j) { return sender * 1000003 + number * 7 + j; }

/* ---- files ---- */

static void patch(uint64_t place, uint64_t word)
{
    int file = open(path, O_WRONLY);
    if (file < 0 || pwrite(file, &word, sizeof word, (off_t)(place * 8)) != sizeof word)
        fail("patch", errno);
    close(file);
}

static void files(void)
{
    struct rme_seat seat, other;
    expect("no file", rme_attach(&seat, path, 0), ENOENT);
    expect("sizes of no world", rme_create(path, 65, 4, 1, 0), EINVAL);
    expect("create", rme_create(path, 2, 4, 1, 0), 0);
    expect("create again", rme_create(path, 2, 4, 1, 0), EEXIST);
    expect("no such index", rme_attach(&seat, path, 2), EINVAL);
    expect("attach", rme_attach(&seat, path, 0), 0);
    expect("a living process", rme_attach(&other, path, 0), EBUSY);
    expect("another index", rme_attach(&other, path, 1), 0);
    expect("detach", rme_detach(&other), 0);
    expect("lock", rme_lock(&seat), 0);
    expect("lock twice", rme_lock(&seat), EDEADLK);
    expect("nothing to mend", rme_consistent(&seat), EINVAL);
    expect("detach inside", rme_detach(&seat), EBUSY);
    expect("attach after a crash", rme_attach(&seat, path, 0), 0);
    if (!seat.crashed)
        fail("the crash was not seen", 0);
    expect("lock", rme_lock(&seat), EOWNERDEAD);
    expect("append, not mended", rme_append(&seat, 1, (uint64_t[]){7}), EOWNERDEAD);
    expect("consistent", rme_consistent(&seat), 0);
    expect("append", rme_append(&seat, 1, (uint64_t[]){7}), 0);
    expect("append again", rme_append(&seat, 1, (uint64_t[]){7}), EALREADY);
    expect("append out of order", rme_append(&seat, 3, (uint64_t[]){7}), EINVAL);
    expect("put", rme_put(&seat, 3, 77), 0);
    uint64_t word = 0;
    expect("get", rme_get(&seat, 3, &word), 0);
    expect("no such board word", rme_get(&seat, 4, &word), EINVAL);
    if (word != 77)
        fail("board word", 0);
    expect("attach", rme_attach(&other, path, 1), 0);
    expect("lock within", rme_lock_within(&other, 5), ETIMEDOUT);
    expect("withdraw", rme_withdraw(&other), 0);
    expect("withdraw twice", rme_withdraw(&other), EINVAL);
    expect("lock within", rme_lock_within(&other, 5), ETIMEDOUT);
    expect("close", rme_close(&seat), 0);
    expect("append, closed", rme_append(&seat, 2, (uint64_t[]){7}), EPIPE);
    expect("unlock", rme_unlock(&seat), 0);
    expect("unlock twice", rme_unlock(&seat), EPERM);
    expect("lock that waited", rme_lock(&other), 0);
    expect("unlock", rme_unlock(&other), 0);
    int found = 0;
    expect("recover", rme_recover(&other, &found), 0);
    if (found != RME_FOUND_IDLE)
        fail("found", 0);
    struct rme_message message;
    if (rme_read_from(&other, 0, &message, 1) != 1 || message.number != 1 || message.value[0] != 7)
        fail("read", 0);
    memset(&other.machine, 0xff, sizeof other.machine);
    expect("a corrupted machine", rme_lock(&other), EINVAL);
    expect("detach of a corrupted machine", rme_detach(&other), EBUSY);
    expect("detach", rme_detach(&seat), 0);
    patch(3, 12345);
    expect("header of another size", rme_attach(&seat, path, 0), EPROTO);
    patch(3, rme_words(2, 4, 1));
    patch(1, RME_FORMAT + 1);
    expect("header of another version", rme_attach(&seat, path, 0), EPROTO);
    patch(1, RME_FORMAT);
    if (truncate(path, 2 * RME_HEADER + 8))
        fail("truncate", errno);
    expect("a file cut short", rme_attach(&seat, path, 0), EPROTO);
    patch(0, 1);
    expect("no file of ours", rme_attach(&seat, path, 0), EBADMSG);
    if (truncate(path, 0))
        fail("truncate", errno);
    expect("an empty file", rme_attach(&seat, path, 0), EBADMSG);
    unlink(path);
}

/* An rme_create that is killed at any instant leaves no file under this name, or a whole one. */
static void creates(unsigned rounds)
{
    unsigned whole = 0;
    for (unsigned i = 0; i < rounds; i++) {
        pid_t child = fork();
        if (child == 0)
            _exit(rme_create(path, 4, 65536, 8, 0));
        nap(drand48() * 0.003);
        kill(child, SIGKILL);
        waitpid(child, NULL, 0);
        struct rme_seat seat;
        int error = rme_attach(&seat, path, i % 4);
        if (error && error != ENOENT)
            fail("attach after a create that was killed", error);
        if (!error) {
            expect("lock", rme_lock(&seat), 0);
            expect("unlock", rme_unlock(&seat), 0);
            expect("detach", rme_detach(&seat), 0);
            whole++;
        }
        unlink(path);
    }
    printf("creates %u whole %u\n", rounds, whole);
}

/* ---- senders ---- */

static uint64_t last_of(const struct rme_seat *seat, uint64_t sender)
{
    static struct rme_message read[256];
    uint64_t last = 0, got, place = 0;
    for (; (got = rme_read_from(seat, place, read, 256)) > 0; place += got)
        for (uint64_t k = 0; k < got; k++)
            if (read[k].sender == sender)
                last = read[k].number;
    return last;
}

static void come_in(struct rme_seat *seat)
{
    int entered = rme_lock(seat);
    if (entered == EOWNERDEAD) {
        tally->owner_died++;
        if (rme_consistent(seat))
            _exit(4);
        tally->second = tally->first;
    } else if (entered) {
        _exit(3);
    }
    tally->entries++;
    if (tally->first != tally->second)
        tally->overlaps++;
}

/* An append step by step, with a pause before each access: here most of those die that die inside. */
static int slow_append(struct rme_seat *seat, uint64_t number, const uint64_t *value)
{
    const struct rme_call call = {.code = RME_APPEND, .number = number, .value = {value[0], value[1]}};
    struct rme_access next;
    uint64_t answer = rme_start(&seat->machine, &call, &next);
    while (answer == 0) {
        uint64_t read = 0;
        nap(0.0002);
        if (next.place < 3 * senders || next.place >= seat->count)
            _exit(9);
        _Atomic uint64_t *word = (_Atomic uint64_t *)&seat->words[next.place - 3 * senders];
        if (next.store)
            atomic_store(word, next.value);
        else
            read = atomic_load(word);
        answer = rme_feed(&seat->machine, read, &next);
    }
    return answer == RME_STORED ? 0 : answer == RME_ALREADY ? EALREADY : EINVAL;
}

static void sender(uint64_t p)
{
    static struct rme_seat seat;
    alarm(55);
    if (rme_attach(&seat, path, p))
        _exit(2);
    come_in(&seat);
    if (rme_unlock(&seat))
        _exit(7);
    /* It sends its last message again: nothing may come of that. */
    uint64_t last = last_of(&seat, p);
    for (uint64_t number = last ? last : 1; number <= messages; number++) {
        const uint64_t value[WIDTH] = {value_of(p, number, 0), value_of(p, number, 1)};
        come_in(&seat);
        tally->first = tally->first + 1;
        if (tally->lingers == p + 1) {
            tally->inside = p + 1;
            while (tally->lingers == p + 1)
                nap(0.001);
            tally->inside = 0;
        }
        int answer = number % 8 == p % 8 ? slow_append(&seat, number, value) : rme_append(&seat, number, value);
        if (answer == EALREADY)
            tally->already++;
        else if (answer)
            _exit(6);
        tally->second = tally->second + 1;
        if (rme_unlock(&seat))
            _exit(7);
    }
    _exit(rme_detach(&seat) ? 8 : 0);
}

static pid_t begin(uint64_t p)
{
    pid_t child = fork();
    if (child == 0)
        sender(p);
    return child;
}

/* One is stopped inside for a second: nobody enters meanwhile. */
static void stop_inside(pid_t child, uint64_t p)
{
    tally->lingers = p + 1;
    for (int i = 0; tally->inside != p + 1; i++) {
        if (i > 5000)
            fail("nobody lingers", 0);
        nap(0.001);
    }
    kill(child, SIGSTOP);
    uint64_t before = tally->entries;
    nap(1);
    if (tally->entries != before)
        fail("an entry beside one that is stopped inside", 0);
    tally->lingers = 0;
    kill(child, SIGCONT);
}

static void pause_between_kills(void) { nap(drand48() * 2 / kills_per_second); }

/* Answers how many were killed. */
static uint64_t torment_senders(void)
{
    struct torment t = {.program = "torture", .begin = begin, .all = senders};
    torment_begins(&t);
    stop_inside(t.child[senders - 1], senders - 1);
    torment_ends(&t, pause_between_kills);
    return t.kills;
}

/* ---- the end ---- */

static FILE *output(const char *folder, const char *name)
{
    char full[4200];
    snprintf(full, sizeof full, "%s/%s", folder, name);
    FILE *file = fopen(full, "w");
    if (!file)
        fail(full, errno);
    return file;
}

static uint64_t *words_of(const struct rme_seat *seat)
{
    uint64_t *words = calloc(seat->count, sizeof *words);
    if (!words)
        fail("memory", ENOMEM);
    if (rme_copy_words(seat, words, seat->count) != seat->count)
        fail("the words", 0);
    return words;
}

static void write_image(const uint64_t *words, uint64_t count, const char *folder)
{
    FILE *image = output(folder, "image");
    fprintf(image, "{\"cap\":%" PRIu64 ",\"data\":[", senders * messages);
    for (uint64_t i = 3 * senders; i < count; i++)
        fprintf(image, "%s%" PRIu64, i > 3 * senders ? "," : "", words[i]);
    fprintf(image, "],\"limit\":%" PRIu64 ",\"lock\":[", RME_LIMIT);
    for (uint64_t p = 0; p < senders; p++)
        fprintf(image, "%s[%" PRIu64 ",%" PRIu64 ",%" PRIu64 "]", p ? "," : "", words[3 * p], words[3 * p + 1], words[3 * p + 2]);
    fprintf(image, "],\"version\":2,\"width\":%d}\n", WIDTH);
    fclose(image);
}

/* rme_content_rule accepts the words, and refuses other ones. */
static void judge(uint64_t *words, uint64_t count)
{
    const uint64_t cap = senders * messages;
    if (rme_content_rule(words, count, senders, cap, WIDTH, RME_LIMIT) != RME_LAWFUL)
        fail("the last words", 0);
    if (rme_content_rule(words, count - 1, senders, cap, WIDTH, RME_LIMIT) != RME_NO_BLOCK)
        fail("words of another length", 0);
    words[0] = 2;
    if (rme_content_rule(words, count, senders, cap, WIDTH, RME_LIMIT) != 5)
        fail("a lock word that is no row's", 0);
}

static uint64_t check_list(const struct rme_seat *seat, const char *folder)
{
    FILE *list = output(folder, "list");
    uint64_t next[MOST] = {0}, wrong = 0, place = 0;
    struct rme_message m;
    for (; rme_read_from(seat, place, &m, 1) == 1; place++) {
        fprintf(list, "message %" PRIu64 " %" PRIu64 " %" PRIu64 " %" PRIu64 " %" PRIu64 "\n", place, m.sender, m.number,
                m.value[0], m.value[1]);
        if (m.sender >= senders || m.number != ++next[m.sender])
            wrong++;
        else
            wrong += m.value[0] != value_of(m.sender, m.number, 0) || m.value[1] != value_of(m.sender, m.number, 1);
    }
    fclose(list);
    for (uint64_t p = 0; p < senders; p++)
        wrong += next[p] != messages;
    return wrong;
}

int main(int count, char **word)
{
    if (count != 6)
        return 2;
    snprintf(path, sizeof path, "%s/words", word[1]);
    senders = strtoull(word[2], NULL, 10);
    messages = strtoull(word[3], NULL, 10);
    kills_per_second = atof(word[4]);
    srand48(atol(word[5]));
    if (senders < 1 || senders > MOST || messages < 1)
        return 2;
    tally = mmap(NULL, sizeof *tally, PROT_READ | PROT_WRITE, MAP_SHARED | MAP_ANONYMOUS, -1, 0);
    if (tally == MAP_FAILED)
        fail("mmap", errno);
    files();
    creates(200);
    expect("create", rme_create(path, senders, senders * messages, WIDTH, 0), 0);
    const uint64_t kills = torment_senders();
    struct rme_seat seat;
    expect("attach at the end", rme_attach(&seat, path, 0), 0);
    uint64_t wrong = check_list(&seat, word[1]);
    uint64_t *words = words_of(&seat);
    write_image(words, seat.count, word[1]);
    judge(words, seat.count);
    free(words);
    printf("senders %" PRIu64 " messages %" PRIu64 " kills %" PRIu64 " entries %" PRIu64 " owner-died %" PRIu64 " already %" PRIu64
           " overlaps %" PRIu64 " wrong %" PRIu64 "\n",
           senders, senders * messages, kills, (uint64_t)tally->entries, (uint64_t)tally->owner_died,
           (uint64_t)tally->already, (uint64_t)tally->overlaps, wrong);
    rme_detach(&seat);
    return wrong || tally->overlaps;
}
