// Threads that take turns under a pthread_mutex, as crates/bench_lock does at the proved lock.
#include <pthread.h>
#include <stdint.h>
#include <stdio.h>
#include <stdlib.h>
#include <string.h>
#include <time.h>

enum { MOST_TURNS = 100000, MOST_THREADS = 64, DRAWS = 1000 };

static pthread_mutex_t lock = PTHREAD_MUTEX_INITIALIZER;
static uint32_t numbers[MOST_TURNS];
static size_t count;

struct caller {
    uint32_t number, turns;
    long before, inside; // milliseconds
    uint64_t state;
};

static void rest(long millis) {
    struct timespec time = {millis / 1000, millis % 1000 * 1000000};
    if (millis > 0)
        nanosleep(&time, NULL);
}

static uint64_t drawn(uint64_t state) {
    for (int draw = 0; draw < DRAWS; draw++) {
        state ^= state << 13;
        state ^= state >> 7;
        state ^= state << 17;
    }
    return state;
}

static void *work(void *argument) {
    struct caller *caller = argument;
    rest(caller->before);
    for (uint32_t turn = 0; turn < caller->turns; turn++) {
        pthread_mutex_lock(&lock);
        if (count < MOST_TURNS)
            numbers[count++] = caller->number;
        rest(caller->inside);
        caller->state = drawn(caller->state);
        pthread_mutex_unlock(&lock);
    }
    return NULL;
}

int main(int argc, char **argv) {
    static struct caller callers[MOST_THREADS];
    pthread_t threads[MOST_THREADS];
    if (argc < 3 || atoi(argv[2]) > MOST_THREADS)
        return 2;
    int held = strcmp(argv[1], "held") == 0, many = atoi(argv[2]);
    for (int i = 0; i < many; i++) {
        callers[i].number = i + 2;
        callers[i].state = 1;
        callers[i].turns = held ? 1 : atoi(argv[3]);
        callers[i].before = held && i > 0 ? 100 : 0;
        callers[i].inside = held && i == 0 ? 1000 : 0;
        if (pthread_create(&threads[i], NULL, work, &callers[i]))
            return 11;
    }
    for (int i = 0; i < many; i++)
        pthread_join(threads[i], NULL);
    printf("%zu turns\n", count);
    return 0;
}
