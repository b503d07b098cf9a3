/* The tool rme: makes a file, shows what stands in it, and releases the places of the dead. USAGE says how. */
#include "rme.h"
#include "tool_log.h"

#include <errno.h>
#include <grp.h>
#include <inttypes.h>
#include <stdbool.h>
#include <stdio.h>
#include <stdlib.h>
#include <string.h>
#include <unistd.h>

static const char USAGE[] =
    "Usage: rme COMMAND [OPTION] FILE [NUMBER]...\n"
    "\n"
    "Makes, shows and mends a file through which processes share the lock and the mailbox of librme, or a log of such files.\n"
    "\n"
    "Commands:\n"
    "  create [--mode MODE] [--group GROUP] FILE PROCS CAP WIDTH [BYTES]  make FILE for PROCS processes and CAP messages of WIDTH words, and BYTES of data\n"
    "  status FILE                          show where each process stands, who waits for whom, and what it counts; changes no word\n"
    "  dump FILE                            show the messages: the place, the sender, the number and the words of each\n"
    "  image FILE                           show the words as an image for rmelab replay --image\n"
    "  reap [--no-repair] FILE [INDEX]      release the places of dead processes, or of the one with this index\n"
    "  log create FOLDER PROCS CAP WIDTH    make a log for PROCS processes, with segments of CAP messages of WIDTH words\n"
    "  log append FOLDER INDEX NUMBER WORD..  append a message as process INDEX, once; NUMBER may be the word next\n"
    "  log follow [--once] FOLDER [READER]  show the messages as they come, and keep how far READER has read\n"
    "  log status FOLDER                    show the segments, the messages of each process, and what named readers have not read\n"
    "  log drop FOLDER [BEFORE]             remove the segments before this one that all named readers have passed\n"
    "  log forget FOLDER READER             remove a named reader\n"
    "\n"
    "Options:\n"
    "  --mode MODE    of the file, in octal; 600 by default\n"
    "  --group GROUP  of the file, by its name or number\n"
    "  --no-repair    reap those too who died inside: the data that the lock guards need no repair\n"
    "  --once         show the messages that there are, and wait for no more\n"
    "  -h, --help     show this text\n"
    "  -V, --version  show the version\n"
    "\n"
    "Exit status: 0 done, 1 refused, or a dead process is left by reap, 2 wrong words.\n";

static const char *const STANDS[] = {
    [RME_FOUND_IDLE] = "idle",       [RME_FOUND_LEFT] = "leaving",  [RME_FOUND_DOORWAY] = "taking its number",
    [RME_FOUND_WAITING] = "waiting", [RME_FOUND_INSIDE] = "inside",
};
static const char *const LIVES[] = {
    [RME_ABSENT] = "absent", [RME_ALIVE] = "alive", [RME_DEAD] = "dead", [RME_IN_REAPING] = "being reaped",
};

/* ---- what stands in a file ---- */

/* All that is shown, read until two readings agree, so that it is mostly of one moment. */
struct view {
    struct rme_seat seat;
    struct rme_file file;
    struct rme_index index[64];
    uint64_t *words;
};

static int refuse(const char *path, int error)
{
    fprintf(stderr, "rme: %s: %s\n", path, rme_strerror(error));
    return 1;
}

static int look_once(struct view *v, uint64_t *words)
{
    int error = rme_file_status(&v->seat, &v->file);
    for (uint64_t p = 0; !error && p < v->file.procs; p++)
        error = rme_index_status(&v->seat, p, &v->index[p]);
    if (!error && rme_copy_words(&v->seat, words, v->file.words) != v->file.words)
        error = EBADMSG;
    return error;
}

/* Answers an error, or 0. */
static int look(struct view *v, const char *path)
{
    enum { READINGS = 100 };
    *v = (struct view){.words = NULL};
    int error = rme_inspect(&v->seat, path);
    if (!error)
        error = rme_file_status(&v->seat, &v->file);
    if (error)
        return error;
    size_t bytes = v->file.words * sizeof *v->words;
    uint64_t *before = malloc(bytes);
    v->words = malloc(bytes);
    bool same = false;
    error = before && v->words ? look_once(v, before) : ENOMEM;
    for (int reading = 0; !error && !same && reading < READINGS; reading++) {
        error = look_once(v, v->words);
        same = !error && memcmp(before, v->words, bytes) == 0;
        uint64_t *now = v->words;
        v->words = before;
        before = now;
    }
    if (!error && !same)
        fprintf(stderr, "rme: %s: its words change while they are read, so they may be of no one moment\n", path);
    free(before);
    return error;
}

static void close_view(struct view *v)
{
    free(v->words);
    if (v->seat.header)
        rme_detach(&v->seat);
}

static const uint64_t *lock_words(const struct view *v, uint64_t p) { return v->words + 3 * p; }

/* Whether p, in line, can't enter before q has moved: q takes its number, or has one that comes first. */
static bool waits_for(const struct view *v, uint64_t p, uint64_t q)
{
    const uint64_t *own = lock_words(v, p), *other = lock_words(v, q);
    if (p == q || own[1] == 0 || own[2] != 0)
        return false;
    return other[0] != 0 || (other[1] != 0 && (other[1] < own[1] || (other[1] == own[1] && q < p)));
}

/* ---- commands ---- */

static const char *stands(int found)
{
    return found < RME_FOUND_IDLE || found > RME_FOUND_INSIDE ? "its words are corrupt" : STANDS[found];
}

/* Who is dead and waited for, or stands inside. */
static bool is_in_the_way(const struct view *v, uint64_t q)
{
    bool waited_for = v->index[q].found == RME_FOUND_INSIDE;
    for (uint64_t p = 0; p < v->file.procs; p++)
        waited_for |= waits_for(v, p, q);
    return v->index[q].life == RME_DEAD && waited_for;
}

static void show_index(const struct view *v, uint64_t p)
{
    const struct rme_index *i = &v->index[p];
    printf("process %" PRIu64 ": %s", p, LIVES[i->life]);
    if (i->life == RME_ALIVE && i->pid > 0)
        printf(", pid %" PRId64, i->pid);
    printf(", %s", stands(i->found));
    const char *between = "; waits for ";
    for (uint64_t q = 0; q < v->file.procs; q++) {
        if (waits_for(v, p, q)) {
            printf("%s%" PRIu64, between, q);
            between = ", ";
        }
    }
    printf("%s", is_in_the_way(v, p) ? "; in the way: start it again, or reap it" : "");
    if (i->entries || i->waits)
        printf("; entries %" PRIu64 ", waits %" PRIu64, i->entries, i->waits);
    putchar('\n');
}

static int show_status(const char *path)
{
    struct view v;
    int error = look(&v, path);
    if (!error) {
        const struct rme_file *f = &v.file;
        uint64_t rule = rme_content_rule(v.words, f->words, f->procs, f->cap, f->width, f->limit);
        printf("processes %" PRIu64 "\n", f->procs);
        printf("messages %" PRIu64 " of %" PRIu64 ", width %" PRIu64 "\n", f->count, f->cap, f->width);
        printf("data %" PRIu64 "\n", f->data_bytes);
        printf("closed %s\nruined %s\n", f->closed ? "yes" : "no", f->ruined ? "yes" : "no");
        if (rule == RME_LAWFUL)
            printf("words lawful\n");
        else
            printf("words break rule %" PRIu64 "\n", rule);
        for (uint64_t p = 0; p < f->procs; p++)
            show_index(&v, p);
    }
    close_view(&v);
    return error ? refuse(path, error) : 0;
}

static int dump(const char *path)
{
    struct rme_seat seat;
    struct rme_file file;
    struct rme_message m;
    int error = rme_inspect(&seat, path);
    if (error)
        return refuse(path, error);
    error = rme_file_status(&seat, &file);
    for (uint64_t at = 0; !error && rme_read_from(&seat, at, &m, 1) == 1; at++) {
        printf("message %" PRIu64 " %" PRIu64 " %" PRIu64, at, m.sender, m.number);
        for (uint64_t j = 0; j < file.width; j++)
            printf(" %" PRIu64, m.value[j]);
        putchar('\n');
    }
    rme_detach(&seat);
    return error ? refuse(path, error) : 0;
}

static void print_words(const uint64_t *words, uint64_t count)
{
    putchar('[');
    for (uint64_t i = 0; i < count; i++)
        printf("%s%" PRIu64, i ? "," : "", words[i]);
    putchar(']');
}

static int print_image(const char *path)
{
    struct view v;
    int error = look(&v, path);
    if (!error) {
        const struct rme_file *f = &v.file;
        printf("{\"cap\":%" PRIu64 ",\"data\":", f->cap);
        print_words(v.words + 3 * f->procs, f->words - 3 * f->procs);
        printf(",\"limit\":%" PRIu64 ",\"lock\":[", f->limit);
        for (uint64_t p = 0; p < f->procs; p++) {
            printf(p ? "," : "");
            print_words(lock_words(&v, p), 3);
        }
        printf("],\"version\":2,\"width\":%" PRIu64 "}\n", f->width);
    }
    close_view(&v);
    return error ? refuse(path, error) : 0;
}

/* Called only where a process has died inside since its index was looked at: whoever ends in here leaves the place as it is. */
static int leave_it(struct rme_seat *dead, uint64_t index, void *data, size_t bytes, void *context)
{
    (void)dead, (void)data, (void)bytes, (void)context;
    fprintf(stderr, "rme: process %" PRIu64 " died inside just now: see --no-repair\n", index);
    _exit(1);
}

/* Answers 1 where a dead process is left, or this index was asked for and can't be reaped. */
static int reap_one(const struct view *v, const char *path, uint64_t p, bool asked, bool no_repair)
{
    const struct rme_index *i = &v->index[p];
    if (i->life == RME_DEAD && i->found == RME_FOUND_INSIDE && !no_repair) {
        fprintf(stderr, "rme: process %" PRIu64 " died inside; what it guards may need repair: see --no-repair\n", p);
        return 1;
    }
    struct rme_index after;
    int error = rme_reap(path, p, no_repair ? NULL : leave_it, NULL);
    if ((error == 0 || error == ENOTRECOVERABLE) && rme_index_status(&v->seat, p, &after) == 0)
        printf("process %" PRIu64 ": reaped, was %s%s\n", p, stands(after.reaped), error ? ", the lock is ruined" : "");
    else if (asked || (error != ESRCH && error != EBUSY))
        return refuse(path, error);
    return 0;
}

static int reap(const char *path, const uint64_t *index, bool no_repair)
{
    struct view v;
    int left = 0, error = look(&v, path);
    if (!error && index && *index >= v.file.procs)
        error = EINVAL;
    for (uint64_t p = 0; !error && p < v.file.procs; p++)
        if (!index || p == *index)
            left |= reap_one(&v, path, p, index != NULL, no_repair);
    close_view(&v);
    return error ? refuse(path, error) : left;
}

/* ---- the words of the command line ---- */

static int wrong_words(void)
{
    fputs("rme: wrong words; rme --help shows the right ones\n", stderr);
    return 2;
}

/* Reads `count` numbers, at most four. */
static bool read_numbers(char **word, int count, uint64_t *number)
{
    if (count > 4)
        return false;
    for (int i = 0; i < count; i++) {
        char *end;
        errno = 0;
        number[i] = strtoull(word[i], &end, 10);
        if (errno || *end || word[i][0] < '0' || word[i][0] > '9')
            return false;
    }
    return true;
}

/* The group of this name, or number. */
static bool read_group(char *word, gid_t *group)
{
    uint64_t number = 0;
    const struct group *named = getgrnam(word);
    if (!named && (!read_numbers(&word, 1, &number) || number >= UINT32_MAX))
        return false;
    *group = named ? named->gr_gid : (gid_t)number;
    return true;
}

static bool read_mode(const char *word, mode_t *mode)
{
    char *end;
    const unsigned long number = strtoul(word, &end, 8);
    *mode = (mode_t)number;
    return *word >= '0' && *word <= '7' && !*end && number <= 0777;
}

static int create(int count, char **word)
{
    uint64_t size[4] = {0};
    mode_t mode = 0600;
    gid_t group = (gid_t)-1;
    for (; count > 2 && word[0][0] == '-'; count -= 2, word += 2) {
        const bool right = strcmp(word[0], "--mode") == 0    ? read_mode(word[1], &mode)
                           : strcmp(word[0], "--group") == 0 ? read_group(word[1], &group)
                                                             : false;
        if (!right)
            return wrong_words();
    }
    if ((count != 4 && count != 5) || word[0][0] == '-' || !read_numbers(word + 1, count - 1, size))
        return wrong_words();
    const int error = rme_create_as(word[0], size[0], size[1], size[2], size[3], mode, group);
    return error ? refuse(word[0], error) : 0;
}

static int obey(const char *command, int count, char **word)
{
    uint64_t number[4];
    if (strcmp(command, "create") == 0)
        return create(count, word);
    bool no_repair = count > 0 && strcmp(word[0], "--no-repair") == 0 && strcmp(command, "reap") == 0;
    count -= no_repair;
    word += no_repair;
    if (count < 1 || word[0][0] == '-' || !read_numbers(word + 1, count - 1, number))
        return wrong_words();
    if (strcmp(command, "status") == 0 && count == 1)
        return show_status(word[0]);
    if (strcmp(command, "dump") == 0 && count == 1)
        return dump(word[0]);
    if (strcmp(command, "image") == 0 && count == 1)
        return print_image(word[0]);
    if (strcmp(command, "reap") == 0 && count <= 2)
        return reap(word[0], count == 2 ? number : NULL, no_repair);
    return wrong_words();
}

static bool is_one_of(const char *word, const char *brief, const char *whole)
{
    return strcmp(word, brief) == 0 || strcmp(word, whole) == 0;
}

int main(int count, char **word)
{
    int status = 0;
    if (count == 2 && is_one_of(word[1], "-h", "--help"))
        fputs(USAGE, stdout);
    else if (count == 2 && is_one_of(word[1], "-V", "--version"))
        printf("rme %s\n", rme_version());
    else if (count > 1 && strcmp(word[1], "log") == 0)
        status = (status = log_command(count - 2, word + 2)) < 0 ? wrong_words() : status;
    else
        status = count < 2 ? wrong_words() : obey(word[1], count - 2, word + 2);
    if (fflush(stdout)) {
        perror("rme: standard output");
        return 1;
    }
    return status;
}
