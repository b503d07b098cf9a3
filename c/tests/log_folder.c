#define _GNU_SOURCE
#include "log_folder.h"

#include <dirent.h>
#include <errno.h>
#include <fcntl.h>
#include <inttypes.h>
#include <stdio.h>
#include <stdlib.h>
#include <string.h>
#include <sys/inotify.h>
#include <sys/mman.h>
#include <sys/stat.h>
#include <unistd.h>

const char *log_folder_name;

static void path_of(char path[4096], const char *name)
{
    if (snprintf(path, 4096, "%s/%s", log_folder_name, name) >= 4096)
        fail("a long name", 0);
}

/* ---- bytes ---- */

static void map_file(struct log_file *f)
{
    char path[4096];
    struct stat status;
    path_of(path, f->name);
    const int file = open(path, O_RDWR | O_CLOEXEC);
    if (file < 0 || fstat(file, &status) || status.st_size == 0)
        fail("a file that can't be read", errno);
    f->bytes = (uint64_t)status.st_size;
    void *mapped = mmap(NULL, f->bytes, PROT_READ | PROT_WRITE, MAP_SHARED, file, 0);
    if (mapped == MAP_FAILED)
        fail("mmap", errno);
    f->words = mapped;
    close(file);
}

static int by_name(const void *a, const void *b) { return strcmp(((const struct log_file *)a)->name, ((const struct log_file *)b)->name); }

static void read_names(struct log_files *found)
{
    static DIR *folder;
    if (!folder)
        folder = opendir(log_folder_name);
    if (!folder)
        fail("opendir", errno);
    rewinddir(folder);
    found->count = 0;
    for (const struct dirent *entry; (entry = readdir(folder));) {
        if (entry->d_name[0] == '.' && (entry->d_name[1] == 0 || entry->d_name[1] == '.'))
            continue;
        if (found->count == MOST_FILES || strlen(entry->d_name) >= MOST_NAME)
            fail("other files in the folder", (int64_t)found->count);
        struct log_file *f = &found->file[found->count++];
        *f = (struct log_file){.inode = entry->d_ino};
        memcpy(f->name, entry->d_name, strlen(entry->d_name) + 1);
    }
    qsort(found->file, found->count, sizeof found->file[0], by_name);
}

static const struct log_file *find(const struct log_files *files, const struct log_file *wanted)
{
    for (uint64_t i = 0; i < files->count; i++)
        if (files->file[i].inode == wanted->inode && strcmp(files->file[i].name, wanted->name) == 0)
            return &files->file[i];
    return NULL;
}

bool folder_may_differ(void)
{
    static int watch = -1;
    static char events[1 << 14];
    if (watch < 0) {
        watch = inotify_init1(IN_NONBLOCK | IN_CLOEXEC);
        if (watch < 0 || inotify_add_watch(watch, log_folder_name, IN_CREATE | IN_DELETE | IN_MOVE) < 0)
            fail("inotify", errno);
        return true;
    }
    return read(watch, events, sizeof events) > 0;
}

bool folder_look(struct log_files *files)
{
    struct log_files found;
    read_names(&found);
    bool other = found.count != files->count;
    for (uint64_t i = 0; i < found.count; i++) {
        const struct log_file *had = find(files, &found.file[i]);
        other = other || !had;
        if (had)
            found.file[i] = *had;
        else
            map_file(&found.file[i]);
    }
    for (uint64_t i = 0; i < files->count; i++)
        if (!find(&found, &files->file[i]))
            munmap(files->file[i].words, files->file[i].bytes);
    *files = found;
    return other;
}

void folder_clear(struct log_files *files)
{
    folder_look(files);
    for (uint64_t i = 0; i < files->count; i++) {
        char path[4096];
        path_of(path, files->file[i].name);
        munmap(files->file[i].words, files->file[i].bytes);
        if (unlink(path))
            fail("unlink", errno);
    }
    files->count = 0;
}

/* ---- snapshots ---- */

/* Where the log's own data begin, in words; 0 in what is no file of the library. */
static uint64_t own_data(const uint64_t *words, uint64_t bytes)
{
    const struct rme_header *h = (const void *)words;
    const uint64_t at = (2 * RME_HEADER + 8 * (h->words - 3 * h->procs) + 63) / 64 * 8;
    return h->magic == RME_MAGIC && bytes >= sizeof *h && 8 * at < bytes ? at : 0;
}

/* Of a process's line the first four words are the lock's. */
bool folder_is_count(uint64_t k) { return k >= RME_HEADER / 8 && k < 2 * RME_HEADER / 8 && k % 8 >= 4; }

/* A word of a file, by which states are distinguished: not the identity of the log, and not what a reaper has found, which no call of the log
 * asks for. */
static uint64_t word_apart(const struct log_file *f, uint64_t identity, uint64_t k)
{
    const uint64_t marks = offsetof(struct rme_header, marks) / 8;
    if (k == identity || folder_is_count(k))
        return 0;
    return k >= marks && k < marks + 64 ? f->words[k] % RME_REAPED : f->words[k];
}

struct snapshot folder_snapshot(const struct log_files *files, bool apart)
{
    static uint64_t numbers[1 << 16];
    uint64_t n = 0, hash = UINT64_C(14695981039346656037);
    for (uint64_t i = 0; i < files->count; i++) {
        const struct log_file *f = &files->file[i];
        const uint64_t identity = own_data(f->words, f->bytes) + 2, at = n;
        if (n + MOST_NAME / 8 + 2 + f->bytes / 4 > sizeof numbers / 8)
            fail("a great folder", (int64_t)n);
        memcpy(numbers + n, f->name, MOST_NAME);
        n += MOST_NAME / 8 + 2;
        numbers[at + MOST_NAME / 8] = f->bytes;
        for (uint64_t k = 0; k < f->bytes / 8; k++) {
            const uint64_t word = apart ? word_apart(f, identity, k) : f->words[k];
            if (word == 0)
                continue;
            numbers[n++] = k;
            numbers[n++] = word;
        }
        numbers[at + MOST_NAME / 8 + 1] = n;
    }
    for (uint64_t k = 0; k < n; k++)
        hash = (hash ^ numbers[k]) * UINT64_C(1099511628211);
    struct snapshot taken = {malloc(8 * n + 8), n, hash};
    if (!taken.numbers)
        fail("memory", ENOMEM);
    memcpy(taken.numbers, numbers, 8 * n);
    return taken;
}

bool folder_same(const struct snapshot *a, const struct snapshot *b)
{
    return a->hash == b->hash && a->length == b->length && memcmp(a->numbers, b->numbers, 8 * a->length) == 0;
}

void folder_restore(struct log_files *files, const struct snapshot *snapshot)
{
    folder_clear(files);
    for (uint64_t n = 0; n < snapshot->length;) {
        char path[4096], name[MOST_NAME];
        const uint64_t bytes = snapshot->numbers[n + MOST_NAME / 8], end = snapshot->numbers[n + MOST_NAME / 8 + 1];
        memcpy(name, snapshot->numbers + n, MOST_NAME);
        path_of(path, name);
        const int file = open(path, O_RDWR | O_CREAT | O_EXCL | O_CLOEXEC, 0600);
        if (file < 0 || ftruncate(file, (off_t)bytes))
            fail("a file that can't be made", errno);
        close(file);
        struct log_file *f = &files->file[files->count++];
        memcpy(f->name, name, MOST_NAME);
        map_file(f);
        for (n += MOST_NAME / 8 + 2; n < end; n += 2)
            f->words[snapshot->numbers[n]] = snapshot->numbers[n + 1];
    }
    for (uint64_t i = 0; i < files->count; i++)
        munmap(files->file[i].words, files->file[i].bytes);
    files->count = 0;
    folder_look(files);
}

/* ---- what stands in them ---- */

uint64_t value_of(uint64_t sender, uint64_t number, uint64_t j) { return sender * 1000003 + number * 7 + j + 1; }

static void segment_of_file(const struct log_file *f, struct segment_view *s)
{
    const struct rme_header *h = (const void *)f->words;
    const uint64_t at = own_data(f->words, f->bytes);
    if (at == 0)
        fail("a file that is no segment", 0);
    *s = (struct segment_view){.lines = f->words + RME_HEADER / 8, .data = f->words + 2 * RME_HEADER / 8, .own = f->words + at,
                               .procs = h->procs, .cap = h->cap, .width = h->width};
    s->closed = s->data[1];
    s->count = s->data[2];
    s->number = s->own[4];
    s->before = s->own[5];
}

static uint64_t base(const struct segment_view *s, uint64_t sender) { return s->own[16 + sender]; }
static uint64_t last(const struct segment_view *s, uint64_t sender) { return s->data[10 + s->width + sender]; }

static void check_rules(const struct segment_view *s)
{
    static uint64_t copy[1 << 12];
    const uint64_t words = rme_words(s->procs, s->cap, s->width), locks = 3 * s->procs;
    if (words > sizeof copy / 8)
        fail("a great segment", (int64_t)words);
    for (uint64_t i = 0; i < words; i++)
        copy[i] = i < locks ? s->lines[i / 3 * 8 + i % 3] : s->data[i - locks];
    const uint64_t rule = rme_content_rule(copy, words, s->procs, s->cap, s->width, RME_LIMIT);
    if (rule != RME_LAWFUL || s->data[0])
        fail("the words of a segment break a rule, or its lock is ruined", (int64_t)rule);
}

/* A segment, and whether it follows the one before. */
static void check_segment(const struct log_view *v, const struct segment_view *s, const struct segment_view *before)
{
    check_rules(s);
    if (s->number != v->first + v->count)
        fail("a segment of another number under a name", (int64_t)s->number);
    if (before && !before->closed)
        fail("a segment after one that is not closed", (int64_t)s->number);
    if (before && s->before != before->before + before->count)
        fail("a segment begins at another place", (int64_t)s->before);
    for (uint64_t q = 0; q < s->procs; q++)
        if (before && base(s, q) != base(before, q) + last(before, q))
            fail("base numbers that do not follow", (int64_t)base(s, q));
}

static void check_messages(struct log_view *v, const struct segment_view *s)
{
    uint64_t next[64] = {0};
    for (uint64_t a = 0; a < s->count; a++) {
        const uint64_t *entry = s->data + 10 + s->width + s->procs + (2 + s->width) * a;
        if (entry[0] >= s->procs || entry[1] != ++next[entry[0]])
            fail("a message lost, doubled or out of order", (int64_t)entry[1]);
        for (uint64_t j = 0; j < s->width; j++)
            if (entry[2 + j] != value_of(entry[0], base(s, entry[0]) + entry[1], j))
                fail("a message of another value", (int64_t)entry[2 + j]);
    }
    for (uint64_t q = 0; q < s->procs; q++)
        v->numbers[q] = base(s, q) + next[q];
    v->messages = s->before + s->count;
}

static const struct log_file *named(const struct log_files *files, const char *name)
{
    for (uint64_t i = 0; i < files->count; i++)
        if (strcmp(files->file[i].name, name) == 0)
            return &files->file[i];
    return NULL;
}

void log_view(const struct log_files *files, struct log_view *v)
{
    const struct log_file *head = named(files, "log"), *reader = named(files, "reader-r");
    uint64_t known = (head ? UINT64_C(1) : 0) + (reader ? UINT64_C(1) : 0);
    *v = (struct log_view){.count = 0};
    if (!head && files->count > 0)
        fail("files without a log", (int64_t)files->count);
    if (!head)
        return;
    const uint64_t *own = head->words + own_data(head->words, head->bytes);
    v->procs = ((const struct rme_header *)(const void *)head->words)->procs;
    v->first = own[6];
    v->last = own[7];
    v->reader = reader ? (reader->words + own_data(reader->words, reader->bytes))[4] : 0;
    for (uint64_t i = 0; i < files->count; i++) {
        const struct log_file *f = &files->file[i];
        const uint64_t number = strlen(f->name) == 8 ? strtoull(f->name, NULL, 10) : 0;
        known += number > 0;
        if (number == 0 || number < v->first)
            continue;
        struct segment_view *s = &v->segment[v->count];
        segment_of_file(f, s);
        check_segment(v, s, v->count ? s - 1 : NULL);
        check_messages(v, s);
        v->count++;
    }
    if (known != files->count)
        fail("a file of another name", (int64_t)files->count);
    v->dropped = v->count ? v->segment[0].before : 0;
    if (v->last > 0 && v->last >= v->first + v->count)
        fail("a segment that was made is missing", (int64_t)v->last);
    if (v->count > 0 && v->last + 1 < v->first + v->count - 1)
        fail("segments that nobody knows", (int64_t)v->last);
    if (reader && v->reader >> 20 < v->first)
        fail("a named reader was overtaken", (int64_t)v->reader);
}

bool log_message(const struct log_view *v, uint64_t ordinal, uint64_t *sender, uint64_t *number)
{
    for (uint64_t i = 0; i < v->count; i++) {
        const struct segment_view *s = &v->segment[i];
        if (ordinal < s->before || ordinal >= s->before + s->count)
            continue;
        const uint64_t *entry = s->data + 10 + s->width + s->procs + (2 + s->width) * (ordinal - s->before);
        *sender = entry[0];
        *number = base(s, entry[0]) + entry[1];
        return true;
    }
    return false;
}

/* How many messages stand before a cursor, as a reader's file has it. */
uint64_t log_ordinal(const struct log_view *v, uint64_t cursor)
{
    const uint64_t segment = cursor >> 20, place = cursor % (1 << 20);
    if (segment < v->first || segment >= v->first + v->count)
        return segment == v->first ? place : v->messages;
    return v->segment[segment - v->first].before + place;
}

bool log_stands(const struct log_view *v, uint64_t from, uint64_t sender)
{
    for (uint64_t i = from; i < v->count; i++)
        for (uint64_t k = 0; k < 3; k++)
            if (v->segment[i].lines[8 * sender + k])
                return true;
    return false;
}

bool log_is_half_done(const struct log_view *v)
{
    bool half = false;
    for (uint64_t i = 0; i < v->count; i++)
        half = half || v->segment[i].data[3];
    return half;
}
