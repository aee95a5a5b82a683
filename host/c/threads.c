/* The example on a hundred threads at once, each with a world of its own. */
#define main example
#include "example.c"
#undef main

#include <pthread.h>

#define THREADS 100

static void *run(void *failed) {
    if (example() != 0) {
        *(int *)failed = 1;
    }
    return NULL;
}

int main(void) {
    pthread_t threads[THREADS];
    int failed[THREADS] = {0};
    for (int i = 0; i < THREADS; i++) {
        if (pthread_create(&threads[i], NULL, run, &failed[i]) != 0) {
            return 1;
        }
    }
    for (int i = 0; i < THREADS; i++) {
        if (pthread_join(threads[i], NULL) != 0 || failed[i]) {
            return 1;
        }
    }
    return 0;
}
