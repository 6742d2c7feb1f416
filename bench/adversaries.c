/* The longest call on live data that is chosen to make a call long. `adversaries NAME ROUNDS`: makes the
   live data of this name, then allocates objects without fields, each of which is garbage at once, until
   so many cycles have ended. Each of these calls is timed, by the processor time of the thread.

   chain  objects with 2 fields, in a list
   leaves objects without fields, in the fields of a few large ones, and one object with a field last
   large  objects of 4,095 fields that hold nil
   roots  an object with 2 fields in each of 4,096 roots
   all    a third of the words of each of leaves and large, and the roots */
#define _POSIX_C_SOURCE 200112L
#include "rheap.h"
#include <stdio.h>
#include <stdlib.h>
#include <string.h>
#include <time.h>

/* The words of the space, those of live data, the most fields of an object, and the ratio. */
#define WORDS 16777216u
#define LIVE 12000000u
#define MOST 4095u
#define RATIO 32u

static rheap heap = RHEAP_INIT;

/* The data hangs on the first root in a list: each of its objects has the next one in its field 0. */
static const rheap_root_id LIST = {0, 0};
static const rheap_root_id NEW = {0, 1};
static const rheap_root_id LEAF = {0, 2};

static void done(uint8_t status) {
    if (status != RHEAP_DONE) {
        fprintf(stderr, "adversaries: %s\n", rheap_name(status));
        exit(1);
    }
}

/* A new object with so many fields becomes the first of the list. */
static void push(uint32_t fields) {
    done(rheap_insist_alloc(&heap, 0, NEW, fields));
    done(rheap_insist_store_root(&heap, 0, NEW, 0, LIST));
    done(rheap_copy(&heap, 0, LIST, NEW));
}

static void chain(uint32_t words) {
    for (; words >= 4; words -= 4) {
        push(2);
    }
}

/* Each field but the first of a large object holds an object without fields. */
static void leaves(uint32_t words) {
    push(1);
    for (; words >= 3 * (MOST + 1); words -= 3 * (MOST + 1)) {
        uint32_t field;
        push(MOST);
        for (field = 1; field < MOST; field++) {
            done(rheap_insist_alloc(&heap, 0, LEAF, 0));
            done(rheap_insist_store_root(&heap, 0, LIST, field, LEAF));
        }
    }
    done(rheap_drop(&heap, 0, LEAF));
}

static void large(uint32_t words) {
    for (; words >= MOST + 2; words -= MOST + 2) {
        push(MOST);
    }
}

static void roots(void) {
    uint32_t owner, slot;
    for (owner = 0; owner < 16; owner++) {
        for (slot = owner == 0 ? 3 : 0; slot < 256; slot++) {
            const rheap_root_id root = {owner, slot};
            done(rheap_insist_alloc(&heap, owner, root, 2));
        }
    }
}

static uint64_t now(void) {
    struct timespec at;
    clock_gettime(CLOCK_THREAD_CPUTIME_ID, &at);
    return (uint64_t)at.tv_sec * 1000000000 + (uint64_t)at.tv_nsec;
}

int main(int argc, char **argv) {
    uint64_t longest = 0;
    uint64_t calls = 0;
    uint64_t cycles = 0;
    const char *name = argc == 3 ? argv[1] : "";
    const uint64_t rounds = argc == 3 ? strtoul(argv[2], NULL, 10) : 0;
    const int is_all = strcmp(name, "all") == 0;
    rheap_did did;
    done(rheap_open_sized(&heap, WORDS, MOST + 2, RATIO, 16, 256));
    if (strcmp(name, "chain") == 0) {
        chain(LIVE);
    } else if (strcmp(name, "leaves") == 0) {
        leaves(LIVE);
    } else if (strcmp(name, "large") == 0) {
        large(LIVE);
    } else if (strcmp(name, "roots") == 0) {
        roots();
    } else if (is_all) {
        leaves(LIVE / 3);
        large(LIVE / 3);
        roots();
    } else {
        fprintf(stderr, "adversaries: NAME ROUNDS, and no such name\n");
        return 2;
    }
    done(rheap_drop(&heap, 0, NEW));
    while (cycles < rounds) {
        const uint64_t began = now();
        uint64_t time;
        done(rheap_alloc(&heap, 0, NEW, 0));
        time = now() - began;
        longest = time > longest ? time : longest;
        calls++;
        done(rheap_last_did(&heap, &did));
        if (did.flipped == 1) {
            cycles++;
        }
    }
    printf("%s: cycles %lu calls %lu longest call %.1f us\n", name, (unsigned long)cycles,
           (unsigned long)calls, (double)longest / 1000);
    done(rheap_close(&heap));
    return 0;
}
