/* Posts a message as process INDEX of the file "box": post [INDEX]. The file is made for two processes where it is not there. */
#include <errno.h>
#include <inttypes.h>
#include <rme.h>
#include <stdio.h>
#include <stdlib.h>

static int fail(const char *call, int error)
{
    fprintf(stderr, "%s: %s\n", call, rme_strerror(error));
    return 1;
}

int main(int count, char **word)
{
    uint64_t index = count > 1 ? strtoull(word[1], NULL, 10) : 0, next = 1;
    struct rme_seat seat;
    struct rme_message message;
    int error = rme_create("box", 2, 1024, 1, 0); /* 2 processes, 1,024 messages of one word, no data */
    if (error && error != EEXIST)
        return fail("create", error);
    error = rme_attach(&seat, "box", index);
    if (error)
        return fail("attach", error);
    error = rme_lock(&seat);
    if (error == EOWNERDEAD)
        error = rme_consistent(&seat); /* an earlier process of this index died inside: its append is ended */
    if (error)
        return fail("lock", error);
    for (uint64_t at = 0; rme_read_from(&seat, at, &message, 1) == 1; at++)
        if (message.sender == index)
            next = message.number + 1;
    uint64_t value = 77;
    error = rme_append(&seat, next, &value);
    printf("message %" PRIu64 ": %s\n", next, error ? rme_strerror(error) : "stored");
    rme_unlock(&seat);
    return rme_detach(&seat);
}
