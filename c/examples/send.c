/* Appends messages to a file that processes share, one a second inside the section, and prints what it is answered.
 *
 *     send FILE PROCS INDEX MESSAGES [SECONDS] */
#include "rme.h"

#include <errno.h>
#include <inttypes.h>
#include <stdio.h>
#include <stdlib.h>
#include <string.h>
#include <unistd.h>

int main(int count, char **word)
{
    struct rme_seat seat;
    static struct rme_message sent[1024];
    if (count < 5)
        return 2;
    uint64_t index = strtoull(word[3], NULL, 10), last = 0;
    rme_create(word[1], strtoull(word[2], NULL, 10), 1024, 1, 0); /* EEXIST: it is there already */
    int error = rme_attach(&seat, word[1], index);
    if (error) {
        fprintf(stderr, "attach: %s\n", strerror(error));
        return 1;
    }
    for (uint64_t left = strtoull(word[4], NULL, 10); left > 0; left--) {
        error = rme_lock(&seat);
        printf("%" PRIu64 ": %s\n", index, error == EOWNERDEAD ? "owner died" : error ? strerror(error) : "inside");
        fflush(stdout);
        if (error == EOWNERDEAD)
            rme_consistent(&seat);
        else if (error)
            return 1;
        uint64_t shown = rme_read_from(&seat, 0, sent, 1024);
        for (uint64_t k = last = 0; k < shown; k++)
            last = sent[k].sender == index ? sent[k].number : last;
        sleep(count > 5 ? (unsigned)atoi(word[5]) : 1);
        error = rme_append(&seat, last + 1, &(uint64_t){1000 * index + last + 1});
        printf("%" PRIu64 ": message %" PRIu64 " %s\n", index, last + 1, error ? strerror(error) : "stored");
        fflush(stdout);
        rme_unlock(&seat);
    }
    for (uint64_t k = 0; k < rme_read_from(&seat, 0, sent, 1024); k++)
        printf("%" PRIu64 " %" PRIu64 " %" PRIu64 "\n", sent[k].sender, sent[k].number, sent[k].value[0]);
    return rme_detach(&seat);
}
