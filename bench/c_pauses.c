/* How long the calls of a program took in which a collector works: of rheap.h what makes an object, and
   stores, as the programs here make them; or with -DBOEHM allocations of Boehm's collector. It is
   linked with --wrap for each.

   A call is timed by the processor time of the thread, so that other work on the machine isn't counted.
   Prints at the end the longest call, and within what 9,999 of 10,000 calls were done. */
#define _POSIX_C_SOURCE 200112L
#include <stdint.h>
#include <stdio.h>
#include <stdlib.h>
#include <time.h>

/* Calls by their time: 8 buckets for each power of 2 nanoseconds. */
#define BUCKETS (64 * 8)
static uint64_t calls[BUCKETS];
static uint64_t all;
static uint64_t longest;

static uint64_t now(void) {
    struct timespec at;
    clock_gettime(CLOCK_THREAD_CPUTIME_ID, &at);
    return (uint64_t)at.tv_sec * 1000000000 + (uint64_t)at.tv_nsec;
}

/* The bucket of a time, and the least time that is above a bucket. */
static unsigned bucket_of(uint64_t time) {
    unsigned power = 0;
    if (time < 8) {
        return (unsigned)time;
    }
    while (time >> power >= 16) {
        power++;
    }
    return (power + 1) * 8 + (unsigned)(time >> power) - 8;
}

static uint64_t above(unsigned bucket) {
    return bucket < 8 ? bucket + 1 : (uint64_t)(bucket % 8 + 9) << (bucket / 8 - 1);
}

static void tell(void) {
    unsigned bucket = 0;
    uint64_t within = 0;
    while (bucket < BUCKETS && (within += calls[bucket]) * 10000 < all * 9999) {
        bucket++;
    }
    fprintf(stderr, "longest call %.1f us, 99.99 %% within %.1f us\n", (double)longest / 1000,
            (double)above(bucket) / 1000);
}

static void count(uint64_t began) {
    uint64_t time = now() - began;
    if (all == 0) {
        atexit(tell);
    }
    all++;
    calls[bucket_of(time)]++;
    longest = time > longest ? time : longest;
}

#ifdef BOEHM

#define WRAPPED(name)                                                                              \
    void *__real_##name(size_t size);                                                              \
    void *__wrap_##name(size_t size);                                                              \
    void *__wrap_##name(size_t size) {                                                             \
        uint64_t began = now();                                                                    \
        void *block = __real_##name(size);                                                         \
        count(began);                                                                              \
        return block;                                                                              \
    }

WRAPPED(GC_malloc)
WRAPPED(GC_malloc_atomic)

#else

#include "rheap.h"

#define WRAPPED(name, takes, passes)                                                               \
    uint8_t __real_##name takes;                                                                   \
    uint8_t __wrap_##name takes;                                                                   \
    uint8_t __wrap_##name takes {                                                                  \
        uint64_t began = now();                                                                    \
        uint8_t status = __real_##name passes;                                                     \
        count(began);                                                                              \
        return status;                                                                             \
    }
#define ALLOCATION(name)                                                                           \
    WRAPPED(name, (rheap * heap, uint32_t dst, uint32_t fields), (heap, dst, fields))
#define STORE(name, type)                                                                          \
    WRAPPED(name, (rheap * heap, uint32_t object, uint32_t field, type what),                      \
            (heap, object, field, what))

ALLOCATION(rheap_shared_insist_alloc)
ALLOCATION(rheap_shared_insist_alloc_raw)
STORE(rheap_shared_insist_store_root, uint32_t)
STORE(rheap_shared_insist_store_int, int64_t)
WRAPPED(rheap_insist_make,
        (rheap * heap, uint32_t owner, rheap_root_id dst, uint32_t fields,
         const rheap_init *values, size_t length),
        (heap, owner, dst, fields, values, length))

#endif
