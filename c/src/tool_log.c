#include "tool_log.h"

#include "rme_log.h"

#include <errno.h>
#include <inttypes.h>
#include <stdio.h>
#include <stdlib.h>
#include <string.h>

enum { WRONG_WORDS = -1 };

static int refuse(const char *folder, int error)
{
    fprintf(stderr, "rme: %s: %s\n", folder, rme_log_strerror(error));
    return error != 0;
}

static bool read_number(const char *word, uint64_t *number)
{
    char *end;
    errno = 0;
    *number = strtoull(word, &end, 10);
    return !errno && !*end && word[0] >= '0' && word[0] <= '9';
}

/* FOLDER PROCS CAP WIDTH */
static int create(int count, char **word)
{
    uint64_t size[3];
    if (count != 4)
        return WRONG_WORDS;
    for (int i = 0; i < 3; i++)
        if (!read_number(word[1 + i], &size[i]))
            return WRONG_WORDS;
    int error = rme_log_create(word[0], size[0], size[1], size[2]);
    return error ? refuse(word[0], error) : 0;
}

/* ---- append ---- */

static int append_to(struct rme_log *log, uint64_t number, bool next, const uint64_t *value)
{
    int error = next ? rme_log_next(log, &number) : 0;
    if (!error)
        error = rme_log_append(log, number, value);
    if (error && error != EALREADY)
        return error;
    printf("message %" PRIu64 ": %s\n", number, error ? "already there" : "stored");
    return 0;
}

/* FOLDER INDEX NUMBER WORD.. */
static int append(int count, char **word)
{
    static struct rme_log log;
    struct rme_log_state state;
    uint64_t index, number = 0, value[8] = {0};
    const bool next = count > 2 && strcmp(word[2], "next") == 0;
    if (count < 4 || count > 11 || !read_number(word[1], &index) || (!next && !read_number(word[2], &number)))
        return WRONG_WORDS;
    for (int i = 3; i < count; i++)
        if (!read_number(word[i], &value[i - 3]))
            return WRONG_WORDS;
    int error = rme_log_status(word[0], &state);
    if (!error && state.width != (uint64_t)count - 3)
        return fprintf(stderr, "rme: %s: its messages have %" PRIu64 " words\n", word[0], state.width), 1;
    if (!error)
        error = rme_log_open(&log, word[0], index, 1000);
    if (error)
        return refuse(word[0], error);
    error = append_to(&log, number, next, value);
    rme_log_close(&log);
    return error ? refuse(word[0], error) : 0;
}

/* ---- follow ---- */

static void print(const struct rme_message *m, const struct rme_cursor *at, uint64_t width)
{
    printf("message %" PRIu64 " %" PRIu64 " %" PRIu64 " %" PRIu64, at->segment, at->place, m->sender, m->number);
    for (uint64_t j = 0; j < width; j++)
        printf(" %" PRIu64, m->value[j]);
    putchar('\n');
}

/* Prints what there is, and keeps that it has. At a seam the cursor before a message may be the end of the segment before. */
static int print_all(struct rme_log_reader *reader, bool named, uint64_t width)
{
    struct rme_message m;
    uint64_t count = 0;
    int error;
    while (!(error = rme_log_read(reader, &m, 1, &count)) && count == 1) {
        const struct rme_cursor at = {reader->cursor.segment, reader->cursor.place - 1};
        print(&m, &at, width);
    }
    if (fflush(stdout))
        return errno;
    return !error && named ? rme_log_keep(reader) : error;
}

/* [--once] FOLDER [READER] */
static int follow(int count, char **word)
{
    enum { MILLISECONDS = 1000 };
    static struct rme_log_reader reader;
    struct rme_log_state state;
    const bool once = count > 0 && strcmp(word[0], "--once") == 0;
    count -= once;
    word += once;
    if (count < 1 || count > 2)
        return WRONG_WORDS;
    int error = rme_log_status(word[0], &state);
    if (!error)
        error = rme_log_reader_open(&reader, word[0], count > 1 ? word[1] : NULL);
    if (error)
        return refuse(word[0], error);
    do {
        error = print_all(&reader, count > 1, state.width);
        if (!error && !once)
            error = rme_log_wait(&reader, MILLISECONDS);
    } while (!once && (error == 0 || error == ETIMEDOUT));
    rme_log_reader_close(&reader);
    return error ? refuse(word[0], error) : 0;
}

/* ---- status, drop, forget ---- */

static int show_reader(const struct rme_log_reader_state *r, void *context)
{
    (void)context;
    printf("reader %s: %s, segment %" PRIu64 " place %" PRIu64 ", unread %" PRIu64 "%s\n", r->name, r->alive ? "alive" : "absent",
           r->cursor.segment, r->cursor.place, r->unread, r->overtaken ? "; overtaken" : "");
    return 0;
}

/* FOLDER */
static int show_status(int count, char **word)
{
    struct rme_log_state s;
    if (count != 1)
        return WRONG_WORDS;
    int error = rme_log_status(word[0], &s);
    if (error)
        return refuse(word[0], error);
    printf("processes %" PRIu64 "\n", s.procs);
    printf("segments %" PRIu64 " to %" PRIu64 ", of %" PRIu64 " messages, width %" PRIu64 "\n", s.first, s.last, s.cap, s.width);
    printf("messages %" PRIu64 ", dropped %" PRIu64 "\n", s.messages, s.dropped);
    for (uint64_t p = 0; p < s.procs; p++)
        printf("process %" PRIu64 ": messages %" PRIu64 "\n", p, s.numbers[p]);
    error = rme_log_readers(word[0], show_reader, NULL);
    return error ? refuse(word[0], error) : 0;
}

/* FOLDER [BEFORE] */
static int drop(int count, char **word)
{
    uint64_t before = UINT64_MAX, first = 0;
    if (count < 1 || count > 2 || (count == 2 && !read_number(word[1], &before)))
        return WRONG_WORDS;
    int error = rme_log_drop(word[0], before, &first);
    if (!error)
        printf("first segment %" PRIu64 "\n", first);
    return error ? refuse(word[0], error) : 0;
}

/* FOLDER READER */
static int forget(int count, char **word)
{
    if (count != 2)
        return WRONG_WORDS;
    int error = rme_log_forget(word[0], word[1]);
    return error ? refuse(word[0], error) : 0;
}

int log_command(int count, char **word)
{
    static const struct {
        const char *name;
        int (*obey)(int count, char **word);
    } commands[] = {
        {"create", create}, {"append", append}, {"follow", follow}, {"status", show_status}, {"drop", drop}, {"forget", forget},
    };
    for (size_t i = 0; count > 0 && i < sizeof commands / sizeof *commands; i++)
        if (strcmp(word[0], commands[i].name) == 0)
            return commands[i].obey(count - 1, word + 1);
    return WRONG_WORDS;
}
