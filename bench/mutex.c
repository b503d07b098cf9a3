/* The other opponent of the running lock: the C library's robust mutex, shared between processes.
 *
 *     mutex THREADS ROUNDS      each of THREADS threads locks and unlocks ROUNDS times
 */
#include <errno.h>
#include <pthread.h>
#include <stdio.h>
#include <stdlib.h>
#include <sys/mman.h>

enum { MOST_THREADS = 64 };

static pthread_mutex_t *mutex;
static unsigned long rounds;

static void *work(void *entries)
{
    for (unsigned long i = 0; i < rounds; i++) {
        int answer = pthread_mutex_lock(mutex);
        if (answer == EOWNERDEAD)
            answer = pthread_mutex_consistent(mutex);
        if (answer != 0)
            abort();
        ++*(unsigned long *)entries;
        pthread_mutex_unlock(mutex);
    }
    return NULL;
}

int main(int count, char **words)
{
    pthread_mutexattr_t kind;
    pthread_t threads[MOST_THREADS];
    unsigned long entries[MOST_THREADS] = {0}, total = 0;
    int n = count > 2 ? atoi(words[1]) : 0;
    if (n < 1 || n > MOST_THREADS)
        return 2;
    rounds = strtoul(words[2], NULL, 10);
    mutex = mmap(NULL, sizeof *mutex, PROT_READ | PROT_WRITE, MAP_SHARED | MAP_ANONYMOUS, -1, 0);
    pthread_mutexattr_init(&kind);
    pthread_mutexattr_setpshared(&kind, PTHREAD_PROCESS_SHARED);
    pthread_mutexattr_setrobust(&kind, PTHREAD_MUTEX_ROBUST);
    pthread_mutex_init(mutex, &kind);
    for (int p = 1; p < n; p++)
        pthread_create(&threads[p], NULL, work, &entries[p]);
    work(&entries[0]);
    for (int p = 1; p < n; p++)
        pthread_join(threads[p], NULL);
    for (int p = 0; p < n; p++)
        total += entries[p];
    printf("entries %lu\n", total);
    return 0;
}
