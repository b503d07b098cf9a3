/* What is counted: ROUNDS of a lock and an unlock, or with `append` of an append between them, by process INDEX of PROCS.
 *
 *     count lock|append PROCS WIDTH INDEX ROUNDS
 *
 * c/tools/count runs it under callgrind twice, and prints what one round takes. */
#define _GNU_SOURCE
#include "rme.h"

#include <stdio.h>
#include <stdlib.h>
#include <unistd.h>

int main(int count, char **word)
{
    uint64_t number[4];
    const uint64_t value[8] = {77};
    struct rme_seat seat;
    char path[64];
    if (count != 6)
        return 2;
    for (int i = 0; i < 4; i++)
        number[i] = strtoull(word[2 + i], NULL, 10);
    snprintf(path, sizeof path, "/dev/shm/rme-count-%d", getpid());
    if (rme_create(path, number[0], 65536, number[1], 0) || rme_attach(&seat, path, number[2]))
        return 3;
    unlink(path);
    for (uint64_t i = 1; i <= number[3]; i++)
        if (rme_lock(&seat) || (word[1][0] == 'a' && rme_append(&seat, i, value)) || rme_unlock(&seat))
            return 1;
    return rme_detach(&seat);
}
