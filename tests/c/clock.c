/* Readings of puffin_now_ns that two threads take in turn never go back: so many (the first argument) on each thread. */
#include <time.h>
#include "puffin.h"
#include <pthread.h>
#include <stdio.h>
#include <stdlib.h>

static pthread_mutex_t lock = PTHREAD_MUTEX_INITIALIZER;
static pthread_cond_t turned = PTHREAD_COND_INITIALIZER;
static int turn;
static int64_t latest;
static long readings, falls;

static void *read_in_turn(void *given) {
    int own = *(int *)given;
    for (long i = 0; i < readings; i++) {
        pthread_mutex_lock(&lock);
        while (turn != own) {
            pthread_cond_wait(&turned, &lock);
        }
        int64_t now = puffin_now_ns();
        falls += now < latest;
        latest = now;
        turn = 1 - own;
        pthread_cond_signal(&turned);
        pthread_mutex_unlock(&lock);
    }
    return NULL;
}

int main(int argc, char **argv) {
    int numbers[2] = {0, 1};
    pthread_t threads[2];
    struct timespec pause = {0, 2000000};
    readings = argc > 1 ? strtol(argv[1], NULL, 10) : 0;
    int64_t first = puffin_now_ns();
    nanosleep(&pause, NULL);
    for (int i = 0; i < 2; i++) {
        pthread_create(&threads[i], NULL, read_in_turn, &numbers[i]);
    }
    for (int i = 0; i < 2; i++) {
        pthread_join(threads[i], NULL);
    }
    /* it goes on while the program sleeps */
    if (falls || latest - first < 2000000) {
        fprintf(stderr, "falls %ld, %lld ns in all\n", falls, (long long)(latest - first));
        return 1;
    }
    printf("readings %ld\n", 2 * readings);
    return 0;
}
