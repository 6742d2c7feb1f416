/* Random reads and writes of many living words, by the calls of rheap.h: `huge_pages LIVE OPERATIONS`.
   Fills a table with objects of 8 words, until LIVE words live, in twice as many words, or in the most
   that a heap may have. Then each operation picks an object of the table at random: three of four read a
   number of it, and the fourth puts a new object into its place.

   Prints the processor nanoseconds an operation, the longest 16 operations in a row until the second
   collection has ended, so that both spaces have been used, and the longest 16 after that; how often the
   heap collected, the peak memory, and how much of it was in huge pages at the end. */
#define _POSIX_C_SOURCE 200112L
#include "rheap.h"
#include <stdio.h>
#include <stdlib.h>
#include <sys/resource.h>
#include <time.h>

/* The words of an object, and how many objects a part of the table has. */
#define OBJECT 8u
#define PART 512u
#define BATCH 16

static rheap heap = RHEAP_INIT;

static const rheap_root_id TABLE = {0, 0};
static const rheap_root_id PLACES = {0, 1};
static const rheap_root_id THING = {0, 2};

static void done(uint8_t status) {
    if (status != RHEAP_DONE) {
        fprintf(stderr, "huge_pages: %s\n", rheap_name(status));
        exit(1);
    }
}

static uint64_t now(void) {
    struct timespec at;
    clock_gettime(CLOCK_THREAD_CPUTIME_ID, &at);
    return (uint64_t)at.tv_sec * 1000000000 + (uint64_t)at.tv_nsec;
}

/* Puts a new object with a number into this place of the part that is at hand. */
static void put(uint32_t place, int64_t number) {
    done(rheap_insist_alloc(&heap, 0, THING, OBJECT - 2));
    done(rheap_insist_store_int(&heap, 0, THING, 0, number));
    done(rheap_insist_store_root(&heap, 0, PLACES, place, THING));
}

/* One operation, on the object that a random number picks. */
static int64_t operate(uint64_t random, uint32_t objects) {
    const uint32_t which = (uint32_t)((random >> 32) * objects >> 32);
    rheap_value value;
    done(rheap_load(&heap, 0, PLACES, TABLE, which / PART, &value));
    if (random % 4 == 0) {
        put(which % PART, which);
        return which;
    }
    done(rheap_load(&heap, 0, THING, PLACES, which % PART, &value));
    done(rheap_peek(&heap, 0, THING, 0, &value));
    return value.number;
}

static void fill(uint32_t objects) {
    uint32_t at;
    done(rheap_alloc(&heap, 0, TABLE, (objects + PART - 1) / PART));
    for (at = 0; at < objects; at++) {
        if (at % PART == 0) {
            done(rheap_insist_alloc(&heap, 0, PLACES, PART));
            done(rheap_insist_store_root(&heap, 0, TABLE, at / PART, PLACES));
        }
        put(at % PART, at);
    }
}

/* The kibibytes of this process in huge pages. */
static long in_huge_pages(void) {
    FILE *file = fopen("/proc/self/smaps_rollup", "r");
    char line[256];
    long kib = 0;
    while (file && fgets(line, sizeof line, file)) {
        sscanf(line, "AnonHugePages: %ld", &kib);
    }
    if (file) {
        fclose(file);
    }
    return kib;
}

/* How many collections have ended. */
static unsigned long collections(void) {
    rheap_stats stats;
    done(rheap_stat(&heap, &stats));
    return (unsigned long)stats.flips;
}

int main(int argc, char **argv) {
    const uint32_t live = argc == 3 ? (uint32_t)strtoul(argv[1], NULL, 10) : 0;
    const uint64_t operations = argc == 3 ? strtoul(argv[2], NULL, 10) : 0;
    const uint32_t objects = live / (OBJECT + 1);
    const uint32_t words = live < RHEAP_MAX_WORDS / 2 ? 2 * live : RHEAP_MAX_WORDS;
    /* The longest batch before and after the second collection has ended. */
    uint64_t longest[2] = {0, 0};
    uint64_t random = 88172645463325252u, started, began, at;
    int64_t sum = 0;
    struct rusage use;
    if (objects == 0 || objects > (RHEAP_MAX_FIELDS - 1) * PART || operations < BATCH) {
        fprintf(stderr, "huge_pages: LIVE OPERATIONS\n");
        return 2;
    }
    done(rheap_open_sized(&heap, words, PART + 2, 32, 1, 3));
    fill(objects);
    started = began = now();
    for (at = 1; at <= operations; at++) {
        random ^= random << 13, random ^= random >> 7, random ^= random << 17;
        sum += operate(random, objects);
        if (at % BATCH == 0) {
            const uint64_t time = now() - began;
            uint64_t *const most = &longest[collections() >= 2];
            *most = time > *most ? time : *most;
            began = now();
        }
    }
    started = now() - started;
    getrusage(RUSAGE_SELF, &use);
    printf("%.1f ns an operation, longest 16 %.1f us, after two collections %.1f us, collections %lu, sum %ld, "
           "peak KiB %ld, in huge pages %ld\n",
           (double)started / (double)operations, (double)longest[0] / 1000, (double)longest[1] / 1000, collections(),
           (long)sum, use.ru_maxrss, in_huge_pages());
    done(rheap_close(&heap));
    return 0;
}
