/* Threads and heaps: first each thread has a heap of its own, with no lock; then threads share one
   heap under a lock of the program's. Each thread makes lists, and looks at what it reads.

   It needs POSIX threads. */
#define _POSIX_C_SOURCE 200112L
#include "rheap.h"
#include <pthread.h>
#include <stdio.h>
#include <stdlib.h>

#define THREADS 4
#define ROUNDS 5000

/* A slot of owner 0 has the list that threads share. */
#define SHARED rheap_slot(0, 0)

static void must(uint8_t status) {
    if (status != RHEAP_DONE) {
        fprintf(stderr, "threads: %s\n", rheap_name(status));
        exit(EXIT_FAILURE);
    }
}

/* Puts a number before the list of a root; the cell is whole before the root names it. */
static void put(rheap *heap, uint32_t owner, rheap_root_id list, int64_t number) {
    rheap_root_id cell = rheap_slot(owner, 0);
    must(rheap_insist_alloc(heap, owner, cell, 2));
    must(rheap_insist_store_int(heap, owner, cell, 0, number));
    must(rheap_insist_store_root(heap, owner, cell, 1, list));
    must(rheap_copy(heap, owner, list, cell));
}

/* Takes the first number from the list of a root, which is filled. */
static int64_t take(rheap *heap, uint32_t owner, rheap_root_id list) {
    rheap_value value;
    rheap_value rest;
    must(rheap_peek(heap, owner, list, 0, &value));
    must(rheap_load(heap, owner, list, list, 1, &rest));
    return value.number;
}

/* A thread with a heap of its own: it takes what it put, in turn. Answers what it took. */
static void *with_own_heap(void *argument) {
    rheap heap = RHEAP_INIT;
    rheap_root_id list = rheap_slot(1, 1);
    int64_t *sum = (int64_t *)argument;
    int64_t n;
    *sum = 0;
    must(rheap_open_sized(&heap, 1024, 4, 32, 2, 2));
    for (n = 1; n <= ROUNDS; n++) {
        put(&heap, 1, list, n);
        put(&heap, 1, list, -n);
        *sum += take(&heap, 1, list) == -n ? n : 0;
        *sum += take(&heap, 1, list);
    }
    must(rheap_close(&heap));
    return NULL;
}

/* A heap that threads share, and its lock. Each call on the handle is made under the lock. */
typedef struct {
    rheap heap;
    pthread_mutex_t lock;
} shared_heap;

typedef struct {
    shared_heap *shared;
    uint32_t owner;
    int64_t sum;
} worker;

/* A thread that shares a heap: it has an owner of its own, and puts a number before the shared list
   and takes one from it. Calls that belong together are made under one lock. */
static void *with_shared_heap(void *argument) {
    worker *w = (worker *)argument;
    rheap *heap = &w->shared->heap;
    int64_t n;
    for (n = 1; n <= ROUNDS; n++) {
        pthread_mutex_lock(&w->shared->lock);
        put(heap, w->owner, SHARED, n);
        pthread_mutex_unlock(&w->shared->lock);
        pthread_mutex_lock(&w->shared->lock);
        w->sum += take(heap, w->owner, SHARED);
        pthread_mutex_unlock(&w->shared->lock);
    }
    return NULL;
}

int main(void) {
    pthread_t threads[THREADS];
    int64_t sums[THREADS];
    worker workers[THREADS];
    shared_heap shared;
    rheap closed = RHEAP_INIT;
    rheap_value value;
    int64_t sum = 0;
    int n;

    for (n = 0; n < THREADS; n++) {
        pthread_create(&threads[n], NULL, with_own_heap, &sums[n]);
    }
    for (n = 0; n < THREADS; n++) {
        pthread_join(threads[n], NULL);
        printf("thread %d, its own heap: %ld\n", n, (long)sums[n]);
    }

    shared.heap = closed;
    pthread_mutex_init(&shared.lock, NULL);
    must(rheap_open_sized(&shared.heap, 1024, 4, 32, THREADS + 1, 1));
    for (n = 0; n < THREADS; n++) {
        workers[n].shared = &shared;
        workers[n].owner = (uint32_t)n + 1;
        workers[n].sum = 0;
        pthread_create(&threads[n], NULL, with_shared_heap, &workers[n]);
    }
    for (n = 0; n < THREADS; n++) {
        pthread_join(threads[n], NULL);
        sum += workers[n].sum;
    }
    must(rheap_root(&shared.heap, SHARED, &value));
    printf("all threads, one heap: %ld%s\n", (long)sum, value.kind == RHEAP_NIL ? "" : ", not empty");
    must(rheap_close(&shared.heap));
    pthread_mutex_destroy(&shared.lock);
    return 0;
}
