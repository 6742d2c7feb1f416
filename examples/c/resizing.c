/* Heaps of fixed sizes that are given other words: each status of rheap_resize and rheap_resize_sized,
   after which nothing has changed unless it was done; that the pace is then that of a heap that is
   opened at these sizes; that a program that stays within the bounds finds room from then on, by calls
   that don't insist, over thousands of resizes of heaps that are as small as may be; and that no
   program sees it: random commands, on a heap that is resized between them, leave the same dump as on
   a heap that isn't. Memory is refused in memory.c. Prints nothing where all is as it should be. */
#include "rheap.h"
#include <stdio.h>
#include <string.h>

#define ROOM 200000

static int wrong = 0;
static uint32_t state = 1;
static char text[ROOM];
static char other[ROOM];

static void expect(const char *call, int line, uint8_t got, uint8_t due) {
    if (got != due) {
        wrong++;
        if (wrong <= 20) {
            printf("line %d: %s: %s, not %s\n", line, call, rheap_name(got), rheap_name(due));
        }
    }
}

static void hold(const char *what, int line, int holds) {
    if (!holds) {
        wrong++;
        if (wrong <= 20) {
            printf("line %d: not %s\n", line, what);
        }
    }
}

#define IS(call, status) expect(#call, __LINE__, call, RHEAP_##status)
#define HOLDS(what) hold(#what, __LINE__, (what) != 0)

/* A number below `n`, as the last ones say. */
static uint32_t below(uint32_t n) {
    state = state * 1664525u + 1013904223u;
    return (state >> 8) % n;
}

/* --- Statuses --- */

/* What a program can read of a heap that isn't one of its objects. */
typedef struct seen {
    rheap_stats stats;
    rheap_pacing pacing;
    uint8_t is_short;
} seen;

static void see(rheap *heap, seen *all, char *dump) {
    size_t length;
    memset(all, 0, sizeof *all);
    IS(rheap_stat(heap, &all->stats), DONE);
    IS(rheap_pace(heap, &all->pacing), DONE);
    IS(rheap_short(heap, &all->is_short), DONE);
    IS(rheap_dump(heap, dump, ROOM - 1, &length), DONE);
    dump[length] = 0;
}

/* Resizes a heap, by either call. With no live words it is the one that is told none. */
static uint8_t resize(rheap *heap, uint32_t words, uint32_t live, uint32_t biggest, int is_sized) {
    return is_sized ? rheap_resize_sized(heap, words, biggest)
                    : rheap_resize(heap, words, live, biggest);
}

/* A resize that isn't done: nothing has changed. */
static void refused(int line, rheap *heap, uint32_t words, uint32_t live, uint32_t biggest,
                    int is_sized, uint8_t due) {
    seen before, after;
    see(heap, &before, text);
    expect(is_sized ? "rheap_resize_sized" : "rheap_resize", line,
           resize(heap, words, live, biggest, is_sized), due);
    see(heap, &after, other);
    hold("nothing has changed", line, memcmp(&before, &after, sizeof before) == 0 && strcmp(text, other) == 0);
}

#define REFUSED(words, live, biggest, is_sized, status)                                            \
    refused(__LINE__, heap, words, live, biggest, is_sized, RHEAP_##status)

/* On a heap of 1,000 words at ratio 32, of which 42 are in use and no cycle is on. */
static void statuses(rheap *heap) {
    /* No pace: for what is to live, for the biggest object, and before the words are looked at. */
    REFUSED(1000, 950, 4, 0, NO_PACE);
    REFUSED(1000, 100, 400, 0, NO_PACE);
    REFUSED(1000, 0, 400, 1, NO_PACE);
    REFUSED(0, 0, 0, 0, NO_PACE);
    REFUSED(0, 0, 0, 1, NO_PACE);
    REFUSED(UINT32_MAX, UINT32_MAX, 4, 0, NO_PACE);
    REFUSED(UINT32_MAX, 0, UINT32_MAX, 1, NO_PACE);
    /* A pace, and words that no space may have: before what is in use is looked at. */
    REFUSED(7, 0, 0, 0, BAD_SIZES);
    REFUSED(7, 0, 0, 1, BAD_SIZES);
    REFUSED(RHEAP_MAX_WORDS + 1, 100, 4, 0, BAD_SIZES);
    REFUSED(RHEAP_MAX_WORDS + 1, 0, 4, 1, BAD_SIZES);
    REFUSED(UINT32_MAX, 0, 4, 1, BAD_SIZES);
    /* As many words as are in use are enough, and one less isn't. */
    REFUSED(41, 0, 4, 0, IN_USE);
    REFUSED(41, 0, 4, 1, IN_USE);
    REFUSED(8, 0, 0, 0, IN_USE);
    IS(rheap_resize(heap, 42, 0, 4), DONE);
    IS(rheap_resize(heap, 1000, 800, 4), DONE);
    IS(rheap_resize_sized(heap, 42, 4), DONE);
    IS(rheap_resize_sized(heap, 1000, 4), DONE);
}

/* In a cycle: a log that would keep fewer entries than it holds. */
static void log_in_use(void) {
    rheap opened = RHEAP_INIT;
    rheap *heap = &opened;
    rheap_root_id root = rheap_slot(0, 0);
    rheap_stats stats;
    IS(rheap_open(heap, 1000, 800, 4, 32, 1, 8), DONE);
    IS(rheap_alloc_raw(heap, 0, root, 800), DONE);
    IS(rheap_resize(heap, 810, 0, 4), DONE);
    do {
        IS(rheap_alloc_raw(heap, 0, rheap_slot(0, 1), 0), DONE);
        IS(rheap_stat(heap, &stats), DONE);
    } while (!stats.cycle && stats.free >= 2);
    HOLDS(stats.cycle);
    IS(rheap_resize(heap, 1000, 800, 4), DONE);
    IS(rheap_store_int(heap, 0, root, 0, 1), DONE);
    IS(rheap_store_int(heap, 0, root, 1, 1), DONE);
    IS(rheap_store_int(heap, 0, root, 2, 1), DONE);
    IS(rheap_store_int(heap, 0, root, 3, 1), DONE);
    IS(rheap_stat(heap, &stats), DONE);
    HOLDS(stats.cycle && stats.log == 4);
    REFUSED(1000, 0, 4, 0, IN_USE);
    REFUSED(801, 0, 4, 0, IN_USE);
    IS(rheap_collect(heap), DONE);
    IS(rheap_resize(heap, 1000, 0, 4), DONE);
    IS(rheap_close(heap), DONE);
}

/* A handle without a heap, and a heap that grows: it chooses its own words. */
static void no_fixed_heap(void) {
    rheap opened = RHEAP_INIT;
    rheap *heap = &opened;
    IS(rheap_resize(heap, 1000, 100, 4), NOT_OPEN);
    IS(rheap_resize_sized(heap, 1000, 4), NOT_OPEN);
    HOLDS(heap->at == NULL && heap->grows_at == NULL);
    IS(rheap_open_growing(heap, 1000, 4, 32, 1, 8), DONE);
    IS(rheap_alloc(heap, 0, rheap_slot(0, 0), 2), DONE);
    REFUSED(2000, 100, 4, 0, GROWS);
    REFUSED(2000, 0, 4, 1, GROWS);
    REFUSED(0, 0, 0, 1, GROWS);
    IS(rheap_close(heap), DONE);
    IS(rheap_resize(heap, 1000, 100, 4), NOT_OPEN);
}

/* --- The pace --- */

/* The pace of a resized heap is that of one that is opened at these sizes. */
static void same_pace(uint32_t words, uint32_t live, uint32_t biggest, uint32_t ratio, int is_sized) {
    rheap resized = RHEAP_INIT;
    rheap opened = RHEAP_INIT;
    rheap_pacing got, due;
    rheap_stats stats;
    uint8_t status;
    IS(rheap_open_sized(&resized, 3000, 7, ratio, 2, 8), DONE);
    status = is_sized ? rheap_open_sized(&opened, words, biggest, ratio, 2, 8)
                      : rheap_open(&opened, words, live, biggest, ratio, 2, 8);
    expect("a resize of a heap without objects", __LINE__, resize(&resized, words, live, biggest, is_sized),
           status);
    if (status == RHEAP_DONE) {
        IS(rheap_pace(&resized, &got), DONE);
        IS(rheap_pace(&opened, &due), DONE);
        HOLDS(got.mark == due.mark && got.store_units == due.store_units && got.log_limit == due.log_limit);
        IS(rheap_stat(&resized, &stats), DONE);
        HOLDS(stats.free == words && stats.used == 0);
        IS(rheap_close(&opened), DONE);
    }
    IS(rheap_close(&resized), DONE);
}

static void paces(void) {
    int n, done;
    state = 5;
    for (n = 0; n < 3000; n++) {
        const uint32_t words = 1 + below(n % 3 == 0 ? 40 : 20000);
        same_pace(words, below(words), below(n % 5 == 0 ? 3000 : 30), n % 2 ? 4 + below(61) : 32, n % 4 == 0);
    }
    /* The sizes with which it was opened are those of the pace before. */
    for (done = 0; done < 2; done++) {
        same_pace(3000, 1000, 7, 32, done);
    }
}

/* --- Room --- */

enum { SLOTS = 32, BIGGEST = 8, RATIO = 32 };

/* The least words at which a pace keeps up with so many live ones, and its mark. */
static uint32_t mark_of(uint32_t live) {
    return (3 * live + 5 + RATIO - 4) / (RATIO - 3) + 2 * BIGGEST;
}
static uint32_t least(uint32_t live) {
    return live + 2 * mark_of(live);
}

/* A program that stays within the bounds: of `used` slots each holds an object of BIGGEST words at
   most. */
static void within(rheap *heap, uint32_t used, int steps) {
    int n;
    for (n = 0; n < steps; n++) {
        const rheap_root_id root = rheap_slot(0, below(used));
        const rheap_root_id from = rheap_slot(0, below(used));
        const uint32_t fields = below(20) ? BIGGEST - 2 : 1 + below(BIGGEST - 2);
        IS(rheap_alloc(heap, 0, root, fields), DONE);
        IS(rheap_store_int(heap, 0, root, 0, n), DONE);
        if (below(3) == 0) {
            /* To itself, so that no other object lives longer for it. */
            IS(rheap_store_root(heap, 0, root, fields - 1, root), DONE);
        }
        (void)rheap_store_int(heap, 0, from, 0, 7);
    }
}

/* Resizes the heap of that program, to as few words as may be or a few more. Where it gets smaller, or
   other words are to live, it is collected first. */
static void room(void) {
    rheap heap = RHEAP_INIT;
    rheap_stats stats;
    uint32_t used = SLOTS;
    uint32_t words = 4000;
    uint64_t in_cycles = 0;
    uint32_t slot;
    int n;
    state = 11;
    IS(rheap_open(&heap, words, SLOTS * BIGGEST, BIGGEST, RATIO, 1, SLOTS), DONE);
    for (n = 0; n < 4000; n++) {
        within(&heap, used, (int)below(300));
        IS(rheap_stat(&heap, &stats), DONE);
        if (below(3) != 0) {
            /* More words for what lives already, at any moment. */
            words += below(60);
            in_cycles += stats.cycle;
        } else {
            used = 1 + below(SLOTS);
            for (slot = used; slot < SLOTS; slot++) {
                IS(rheap_drop(&heap, 0, rheap_slot(0, slot)), DONE);
            }
            IS(rheap_collect(&heap), DONE);
            IS(rheap_collect(&heap), DONE);
            words = least(used * BIGGEST) + below(2) * below(100);
        }
        IS(rheap_resize(&heap, words, used * BIGGEST, BIGGEST), DONE);
        if (below(50) == 0) {
            IS(rheap_collect(&heap), DONE);
            IS(rheap_release(&heap), DONE);
        }
    }
    IS(rheap_stat(&heap, &stats), DONE);
    HOLDS(stats.flips > 4000 && in_cycles > 100);
    IS(rheap_close(&heap), DONE);
}

/* The same where no bound was told: as much may live as the pace leaves, which rheap_pace tells. */
static void room_sized(void) {
    rheap heap = RHEAP_INIT;
    rheap_pacing pacing;
    uint32_t used, words;
    int n;
    state = 12;
    IS(rheap_open_sized(&heap, 4000, BIGGEST, RATIO, 1, SLOTS), DONE);
    for (n = 0; n < 1000; n++) {
        words = 80 + below(200);
        IS(rheap_drop(&heap, 0, rheap_slot(0, 0)), DONE);
        for (used = 1; used < SLOTS; used++) {
            IS(rheap_drop(&heap, 0, rheap_slot(0, used)), DONE);
        }
        IS(rheap_collect(&heap), DONE);
        IS(rheap_collect(&heap), DONE);
        IS(rheap_resize_sized(&heap, words, BIGGEST), DONE);
        IS(rheap_pace(&heap, &pacing), DONE);
        used = (words - 2 * pacing.mark) / BIGGEST;
        HOLDS(0 < used && used <= SLOTS);
        within(&heap, used, 300);
    }
    IS(rheap_close(&heap), DONE);
}

/* --- No program sees it --- */

/* One command on both heaps, by calls that insist. */
static void play(rheap *heaps) {
    const rheap_root_id root = rheap_slot(0, below(SLOTS));
    const rheap_root_id from = rheap_slot(0, below(SLOTS));
    const uint32_t what = below(6);
    const uint32_t field = below(5);
    uint8_t status[2] = {0, 0};
    int n;
    for (n = 0; n < 2; n++) {
        rheap *heap = &heaps[n];
        rheap_value value;
        status[n] = what == 0   ? rheap_insist_alloc(heap, 0, root, field)
                    : what == 1 ? rheap_insist_store_int(heap, 0, root, field, field)
                    : what == 2 ? rheap_insist_store_root(heap, 0, root, field, from)
                    : what == 3 ? rheap_load(heap, 0, root, from, field, &value)
                    : what == 4 ? rheap_copy(heap, 0, root, from)
                                : rheap_drop(heap, 0, root);
    }
    HOLDS(status[0] == status[1]);
}

/* Random commands on a heap that is resized at any moment, and on one that isn't. */
static void unseen(void) {
    rheap heaps[2] = {RHEAP_INIT, RHEAP_INIT};
    rheap *heap = &heaps[0];
    uint64_t ends[RHEAP_GROWS + 1] = {0};
    uint64_t in_cycles = 0;
    uint64_t tickets[2];
    seen seen_of[2];
    rheap_stats stats;
    int n;
    state = 13;
    IS(rheap_open_sized(heap, 4000, 7, 8, 1, SLOTS), DONE);
    IS(rheap_open_sized(&heaps[1], 40000, 7, 32, 1, SLOTS), DONE);
    for (n = 0; n < 2; n++) {
        IS(rheap_watch_room(&heaps[n], 1), DONE);
        IS(rheap_alloc(&heaps[n], 0, rheap_slot(0, 0), 2), DONE);
        IS(rheap_watch(&heaps[n], 0, rheap_slot(0, 0), &tickets[n]), DONE);
    }
    for (n = 0; n < 20000; n++) {
        play(heaps);
        if (n % 7 == 6) {
            IS(rheap_stat(heap, &stats), DONE);
            {
                const uint8_t status = resize(heap, (uint32_t)stats.used + 8 + below(700), below(100),
                                              below(9), (int)below(2));
                HOLDS(status == RHEAP_DONE || status == RHEAP_IN_USE || status == RHEAP_NO_PACE);
                ends[status]++;
                in_cycles += status == RHEAP_DONE && stats.cycle;
            }
        }
        if (n % 500 == 499) {
            see(&heaps[0], &seen_of[0], text);
            see(&heaps[1], &seen_of[1], other);
            HOLDS(strcmp(text, other) == 0);
        }
    }
    HOLDS(ends[RHEAP_DONE] > 1000 && in_cycles > 100);
    for (n = 0; n < 2; n++) {
        uint64_t gone = 7;
        uint8_t is = 0;
        size_t dropped;
        IS(rheap_drop_roots(&heaps[n], 0, rheap_slot(0, 0), SLOTS, &dropped), DONE);
        IS(rheap_collect(&heaps[n]), DONE);
        IS(rheap_collect(&heaps[n]), DONE);
        IS(rheap_next_gone(&heaps[n], &gone, &is), DONE);
        HOLDS(is && gone == tickets[n]);
        IS(rheap_close(&heaps[n]), DONE);
    }
}

int main(void) {
    rheap heap = RHEAP_INIT;
    no_fixed_heap();
    IS(rheap_open_sized(&heap, 1000, 4, 32, 1, 8), DONE);
    IS(rheap_alloc(&heap, 0, rheap_slot(0, 0), 40), DONE);
    statuses(&heap);
    IS(rheap_close(&heap), DONE);
    log_in_use();
    paces();
    room();
    room_sized();
    unseen();
    return wrong != 0;
}
