#include "monitor.h"

#include <string.h>

struct monitor *monitor;

uint64_t __real_rme_start(struct rme_process *, const struct rme_call *, struct rme_access *);
uint64_t __real_rme_next(const struct rme_process *, struct rme_access *);
uint64_t __real_rme_feed(struct rme_process *, uint64_t, struct rme_access *);
uint64_t __real_rme_start_run(struct rme_process *, const struct rme_call *, struct rme_access *);
uint64_t __real_rme_feed_run(struct rme_process *, uint64_t, uint64_t, struct rme_access *);
uint64_t __real_rme_leave(struct rme_process *, struct rme_access *);
uint64_t __real_rme_feed_append(struct rme_process *, uint64_t, uint64_t, uint64_t, struct rme_stores *, struct rme_access *);
uint64_t __wrap_rme_leave(struct rme_process *, struct rme_access *);
uint64_t __wrap_rme_feed_append(struct rme_process *, uint64_t, uint64_t, uint64_t, struct rme_stores *, struct rme_access *);
uint64_t __wrap_rme_start_run(struct rme_process *, const struct rme_call *, struct rme_access *);
uint64_t __wrap_rme_feed_run(struct rme_process *, uint64_t, uint64_t, struct rme_access *);
uint64_t __wrap_rme_start(struct rme_process *, const struct rme_call *, struct rme_access *);
uint64_t __wrap_rme_next(const struct rme_process *, struct rme_access *);
uint64_t __wrap_rme_feed(struct rme_process *, uint64_t, struct rme_access *);

/* As rme.h says: a page with the header, a page with a line of 64 bytes for each process, the data words. */
uint64_t offset_of(uint64_t place, uint64_t procs)
{
    return place < 3 * procs ? RME_HEADER + 64 * (place / 3) + 8 * (place % 3) : 2 * RME_HEADER + 8 * (place - 3 * procs);
}

static uint64_t word_of(uint64_t place)
{
    if (place >= monitor->words)
        return 0;
    return *(const volatile uint64_t *)(const volatile void *)(monitor->file + offset_of(place, monitor->procs));
}

void monitor_begins(void)
{
    for (unsigned i = 0; i < 4; i++)
        monitor->named[i] = (struct named){0};
    monitor->owed = NULL;
}

void in_library(void)
{
    if (!monitor || !monitor->traced)
        return;
    monitor->silent = 0;
    __asm__ volatile("int3" ::: "memory");
}

static struct named *slot_of(const struct rme_process *process)
{
    unsigned i = 0;
    while (i < 3 && monitor->named[i].process && monitor->named[i].process != process)
        i++;
    monitor->named[i].process = process;
    monitor->last = i;
    return &monitor->named[i];
}

static void name(struct named *slot, uint64_t store, uint64_t place, uint64_t value)
{
    slot->accesses[slot->count++] = (struct rme_access){store, place, value};
}

/* The loads of a scan, from process j on: of choosing, where looks is 1, and of number. */
static void name_scan(struct named *slot, const struct rme_process *p, uint64_t j, uint64_t looks)
{
    for (; j < p->procs; j++)
        for (uint64_t k = 1 - looks; j != p->index && k < 2; k++)
            name(slot, 0, 3 * j + k, 0);
}

/* The accesses of a run, as rme_machine.h says. */
static void name_run(struct named *slot, const struct rme_process *p, uint64_t answer, uint64_t number)
{
    const uint64_t own = 3 * p->index;
    switch (answer) {
    case RME_LOCKS:
        for (uint64_t k = 0; k < 3; k++)
            name(slot, 0, own + k, 0);
        number = 1;
        /* fallthrough */
    case RME_OPENS:
        name(slot, 1, own, 1);
        name_scan(slot, p, 0, 0);
        if (answer == RME_OPENS)
            break;
        /* fallthrough */
    case RME_TAKES:
        name(slot, 1, own + 1, number);
        name(slot, 1, own, 0);
        name_scan(slot, p, 0, 1);
        if (answer == RME_TAKES)
            break;
        /* fallthrough */
    case RME_MARKS:
        name(slot, 1, own + 2, 1);
        name(slot, 0, 3 * p->procs, 0);
        break;
    case RME_LEAVES:
        name(slot, 1, own + 1, 0);
        name(slot, 1, own + 2, 0);
        break;
    default:
        if (answer < RME_LOOKS)
            name_scan(slot, p, answer - RME_PEEKS, 0);
        else
            name_scan(slot, p, answer - RME_LOOKS, 1);
    }
}

/* A new slot of what the machine names for this process. */
static struct named *named_anew(const struct rme_process *process)
{
    struct named *slot = slot_of(process);
    slot->count = 0;
    memset(slot->seen, 0, sizeof slot->seen);
    for (uint64_t k = 0; k < 3; k++)
        slot->own[k] = word_of(3 * process->index + k);
    return slot;
}

/* What the machine has answered: 0 or RME_BLOCKED, the access is shown; RME_LOAD or more, a load of that place; RME_RUN or more, a
 * run; else none. */
static void note(const struct rme_process *process, uint64_t answer, const struct rme_access *access)
{
    if (!monitor || !monitor->file)
        return;
    struct named *slot = named_anew(process);
    if (answer >= RME_RUN)
        name_run(slot, process, answer, access->value);
    else if (answer >= RME_LOAD)
        name(slot, 0, answer - RME_LOAD, 0);
    else if (answer == 0 || answer == RME_BLOCKED)
        name(slot, access->store, access->place, access->value);
}

/* Whether the run stores into this word once more. It is an own word then, which nobody else stores into. */
static bool is_overwritten(const struct named *slot, uint64_t i, uint64_t before)
{
    for (uint64_t j = i + 1; j <= before; j++)
        if (slot->accesses[j].store && slot->accesses[j].place == slot->accesses[i].place)
            return true;
    return false;
}

/* The accesses that were named are made, this many of them before the last, which reads this value; the others read 0. */
static void compare(const struct rme_process *p, uint64_t before, uint64_t value)
{
    if (!monitor || !monitor->file)
        return;
    const struct named *slot = slot_of(p);
    if (slot->count <= before)
        monitor_refuses("a value is fed where no access was named", &slot->accesses[0], value);
    if (value == 0 && before + 1 != slot->count)
        monitor_refuses("a run is not made to its end", &slot->accesses[before], value);
    for (uint64_t i = 0; i <= before; i++) {
        const struct rme_access *named = &slot->accesses[i];
        const uint64_t read = i == before ? value : 0;
        const bool overwritten = is_overwritten(slot, i, before);
        const uint64_t holds = overwritten ? slot->own[named->place % 3] : word_of(named->place);
        const bool passed = overwritten && (!monitor->traced || !monitor->stepped || slot->seen[i]);
        if (named->store && !passed && named->place < monitor->words && holds != named->value)
            monitor_refuses("a store that was named is not made", named, holds);
        if (!named->store && holds != read)
            monitor_refuses("the value fed is not that of the word named", named, read);
        monitor->compared++;
    }
}

/* What was fed before it was made is compared once the library makes no more accesses of it. */
void in_test(void)
{
    if (!monitor)
        return;
    monitor->silent = 1;
    const struct rme_process *owed = monitor->owed;
    monitor->owed = NULL;
    if (owed && slot_of(owed)->count > 0)
        compare(owed, slot_of(owed)->count - 1, 0);
}

/* Where kills are tried at each access the shim is to ask for each: then the machine has no short way. */
static bool by_accesses(void) { return monitor && monitor->traced && !monitor->stepped; }

uint64_t __wrap_rme_leave(struct rme_process *p, struct rme_access *access)
{
    in_test();
    const uint64_t answer = by_accesses() ? 0 : __real_rme_leave(p, access);
    if (answer && monitor && monitor->file) {
        note(p, RME_LEAVES, access);
        monitor->owed = p;
    }
    in_library();
    return answer;
}

/* The words that an append has loaded are those of these data words. */
static void compare_loaded(const struct rme_process *p, const uint64_t loaded[3])
{
    const uint64_t place[3] = {1, 2, 10 + p->width + p->index};
    for (unsigned i = 0; i < 3; i++) {
        const struct rme_access named = {0, 3 * p->procs + place[i], 0};
        if (word_of(named.place) != loaded[i])
            monitor_refuses("the value fed is not that of the word named", &named, loaded[i]);
        monitor->compared++;
    }
}

uint64_t __wrap_rme_feed_append(struct rme_process *p, uint64_t closed, uint64_t count, uint64_t last, struct rme_stores *stores,
                                struct rme_access *access)
{
    in_test();
    const uint64_t done = by_accesses() ? 0 : __real_rme_feed_append(p, closed, count, last, stores, access);
    if (done && monitor && monitor->file) {
        compare_loaded(p, (const uint64_t[]){closed, count, last});
        note(p, stores->answer, access);
        struct named *slot = stores->count > 0 ? named_anew(p) : NULL;
        for (uint64_t k = 0; k < stores->count; k++)
            name(slot, stores->each[k].store, stores->each[k].place, stores->each[k].value);
        monitor->owed = slot ? p : NULL;
    }
    in_library();
    return done;
}

uint64_t __wrap_rme_start_run(struct rme_process *p, const struct rme_call *call, struct rme_access *access)
{
    in_test();
    const uint64_t answer = __real_rme_start_run(p, call, access);
    if (answer == 0 || answer >= RME_RUN)
        note(p, answer, access);
    in_library();
    return answer;
}

uint64_t __wrap_rme_feed_run(struct rme_process *p, uint64_t zeros, uint64_t value, struct rme_access *access)
{
    in_test();
    compare(p, zeros, value);
    const uint64_t answer = __real_rme_feed_run(p, zeros, value, access);
    note(p, answer, access);
    in_library();
    return answer;
}

uint64_t __wrap_rme_start(struct rme_process *p, const struct rme_call *call, struct rme_access *access)
{
    in_test();
    const uint64_t refused = __real_rme_start(p, call, access);
    if (!refused)
        note(p, refused, access);
    in_library();
    return refused;
}

uint64_t __wrap_rme_next(const struct rme_process *p, struct rme_access *access)
{
    in_test();
    const uint64_t refused = __real_rme_next(p, access);
    if (!refused)
        note(p, refused, access);
    in_library();
    return refused;
}

uint64_t __wrap_rme_feed(struct rme_process *p, uint64_t value, struct rme_access *access)
{
    in_test();
    compare(p, 0, value);
    const uint64_t answer = __real_rme_feed(p, value, access);
    note(p, answer, access);
    in_library();
    return answer;
}
