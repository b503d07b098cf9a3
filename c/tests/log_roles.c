#define _GNU_SOURCE
#include "log_roles.h"

#include <errno.h>
#include <stdio.h>
#include <stdlib.h>
#include <string.h>
#include <unistd.h>

const char *const log_role_names[LOG_ROLES] = {"create", "send", "ask for the number and send", "send as the other", "read", "drop"};
struct log_shared *log_shared;
uint64_t cap, messages;
struct log_files files;

static struct log_view view_now(void)
{
    struct log_view v;
    folder_look(&files);
    log_view(&files, &v);
    return v;
}

void log_examine(struct log_view *v)
{
    const struct log_duty *duty = &log_shared->duty;
    folder_look(&files);
    log_view(&files, v);
    if (duty->created && v->procs == 0)
        fail("a log that was made is not there", 0);
    for (uint64_t p = 0; p < SENDERS; p++)
        if (v->numbers[p] < duty->stored[p] || v->numbers[p] > messages + 2 * SENDERS * cap)
            fail("a message that was answered is lost, or one is there that was not sent", (int64_t)v->numbers[p]);
    if (v->reader && log_ordinal(v, v->reader) < duty->kept)
        fail("a cursor that was kept is lost", (int64_t)v->reader);
    if (v->reader && log_ordinal(v, v->reader) > duty->dealt && log_ordinal(v, v->reader) > v->dropped)
        fail("a cursor is kept past messages that nobody has dealt with", (int64_t)v->reader);
    if (v->first < duty->first)
        fail("segments that were dropped are there", (int64_t)v->first);
}

void log_examine_end(enum log_role role)
{
    struct log_view v;
    log_examine(&v);
    if (v.procs == 0)
        fail("a whole run leaves no log", 0);
    if ((role == SEND || role == SEND_NEXT) && (v.numbers[0] < messages || log_stands(&v, v.count - 1, 0)))
        fail("a whole run has not sent, or leaves words", (int64_t)v.numbers[0]);
    if (role == READ && log_ordinal(&v, v.reader) != v.messages)
        fail("a whole run has not read all", (int64_t)v.reader);
    if (role == DROP && v.first < v.last && (!v.reader || v.first < v.reader >> 20))
        fail("a whole run has not dropped", (int64_t)v.first);
    for (uint64_t i = 0; role == DROP && i < files.count; i++)
        if (files.file[i].name[0] == '0' && strtoull(files.file[i].name, NULL, 10) < v.first)
            fail("a whole run leaves what it has dropped", (int64_t)v.first);
}

/* ---- roles ---- */

static void create(void)
{
    const bool there = view_now().procs > 0;
    expect("create", TRACED(rme_log_create(log_folder_name, SENDERS, cap, 1)), there ? EEXIST : 0);
    log_shared->duty.created = 1;
}

static void append(struct rme_log *log, uint64_t sender, uint64_t number)
{
    const struct log_view before = view_now();
    const uint64_t value[8] = {value_of(sender, number, 0)};
    const bool mended = log_is_half_done(&before) && number == before.numbers[sender] + 1; /* by its own lock */
    const int answer = TRACED(rme_log_append(log, number, value));
    expect("append", answer, number <= before.numbers[sender] || (mended && answer == EALREADY) ? EALREADY : 0);
    if (view_now().numbers[sender] < number)
        fail("an append that was answered is not there", (int64_t)number);
    if (log_shared->duty.stored[sender] < number)
        log_shared->duty.stored[sender] = number;
}

static void send(uint64_t sender, bool asks)
{
    static struct rme_log log;
    uint64_t number = 1;
    expect("open", TRACED(rme_log_open(&log, log_folder_name, sender, 1000)), 0);
    if (asks) {
        expect("next", TRACED(rme_log_next(&log, &number)), 0);
        if (number != view_now().numbers[sender] + 1 || number <= log_shared->duty.stored[sender])
            fail("the log answers another number", (int64_t)number);
    }
    for (; number <= messages; number++)
        append(&log, sender, number);
    expect("close", TRACED(rme_log_close(&log)), 0);
}

/* Deals with one message after the other, and keeps that it has. */
static void read_all(void)
{
    static struct rme_log_reader reader;
    struct log_duty *duty = &log_shared->duty;
    struct rme_message m;
    uint64_t count = 0, sender = 0, number = 0;
    expect("open of a reader", TRACED(rme_log_reader_open(&reader, log_folder_name, "r")), 0);
    for (;;) {
        struct log_view v = view_now();
        const uint64_t ordinal = log_ordinal(&v, reader.cursor.segment << 20 | reader.cursor.place);
        expect("read", TRACED(rme_log_read(&reader, &m, 1, &count)), 0);
        if (count == 0)
            break;
        v = view_now();
        if (!log_message(&v, ordinal, &sender, &number) || m.sender != sender || m.number != number ||
            m.value[0] != value_of(sender, number, 0))
            fail("another message is read", (int64_t)m.number);
        if (duty->dealt < ordinal && ordinal > v.dropped)
            fail("a message is passed over", (int64_t)ordinal);
        duty->dealt = duty->dealt > ordinal + 1 ? duty->dealt : ordinal + 1;
        expect("keep", TRACED(rme_log_keep(&reader)), 0);
        duty->kept = duty->kept > ordinal + 1 ? duty->kept : ordinal + 1;
    }
    expect("close of a reader", TRACED(rme_log_reader_close(&reader)), 0);
}

static void drop(void)
{
    uint64_t first = 0;
    expect("drop", TRACED(rme_log_drop(log_folder_name, UINT64_MAX, &first)), 0);
    log_shared->duty.first = first;
}

void log_play(enum log_role role)
{
    switch (role) {
    case CREATE: create(); return;
    case READ: read_all(); return;
    case DROP: drop(); return;
    default: send(role == SEND_OTHER, role != SEND);
    }
}

/* ---- visitors ---- */

/* The other sender sends until its message is past a seam. */
static void come_by(void)
{
    static struct rme_log log;
    uint64_t number = 0;
    expect("open of one who comes by", rme_log_open(&log, log_folder_name, 1, 1000), 0);
    expect("next of one who comes by", rme_log_next(&log, &number), 0);
    if (number != view_now().numbers[1] + 1)
        fail("the log answers another number to one who comes by", (int64_t)number);
    for (uint64_t i = 0; i <= cap; i++) {
        const uint64_t value[8] = {value_of(1, number + i, 0)};
        expect("append of one who comes by", rme_log_append(&log, number + i, value), 0);
        expect("append again of one who comes by", rme_log_append(&log, number + i, value), EALREADY);
        log_shared->duty.stored[1] = number + i;
    }
    expect("close of one who comes by", rme_log_close(&log), 0);
}

/* One without a name reads what stands there. */
static void look_on(void)
{
    static struct rme_log_reader reader;
    static struct rme_message m[256];
    const struct log_view v = view_now();
    uint64_t count = 0, sender = 0, number = 0;
    expect("open of one who looks on", rme_log_reader_open(&reader, log_folder_name, NULL), 0);
    expect("read of one who looks on", rme_log_read(&reader, m, 256, &count), 0);
    if (count != v.messages - v.dropped)
        fail("another number of messages is read", (int64_t)count);
    for (uint64_t i = 0; i < count; i++)
        if (!log_message(&v, v.dropped + i, &sender, &number) || m[i].sender != sender || m[i].number != number)
            fail("one who looks on reads another message", (int64_t)i);
    expect("close of one who looks on", rme_log_reader_close(&reader), 0);
}

void log_visit(enum log_visitor visitor)
{
    struct log_view v = view_now();
    if (v.procs == 0)
        return;
    if (visitor != READS)
        come_by();
    if (visitor == READS)
        look_on();
    if (visitor == DROPS && view_now().reader)
        read_all();
    if (visitor == DROPS || visitor == PASSES) {
        drop();
        come_by();
    }
    log_examine(&v);
}
