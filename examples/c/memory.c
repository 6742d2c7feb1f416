/* Memory that is refused, each piece in turn, at the calls that open a heap, and at both that run a
   whole trace: the status tells it, and nothing is left taken. So it is of rheap_watch_room, which
   leaves the tickets that there are, of the calls that tell a text, of rheap_release, and of both that
   give a heap more words: it has those that it had then. Each other call is made while all memory is
   refused, and asks for none; so is a resize to no more words and no longer log. A heap that grows goes on with the words
   that it has, and says so, whichever call it is that would make it grow: where each piece is refused
   in turn, all of them, or all from one on. Then the functions by which the library takes memory give,
   resize and refuse blocks that are small and large. It is linked with --wrap for malloc, realloc,
   posix_memalign and free. Prints nothing where all is as it should be.

   With an argument, the system refuses the memory of the largest heap, as `ulimit -v` has it do: the
   status tells it, nothing is left taken, and a small heap can be opened then. */
#include "rheap.h"
#include <errno.h>
#include <stdbool.h>
#include <stddef.h>
#include <stdio.h>
#include <string.h>

void *__real_malloc(size_t size);
void *__real_realloc(void *block, size_t size);
int __real_posix_memalign(void **block, size_t align, size_t size);
void __real_free(void *block);
void *__wrap_malloc(size_t size);
void *__wrap_realloc(void *block, size_t size);
int __wrap_posix_memalign(void **block, size_t align, size_t size);
void __wrap_free(void *block);

/* The functions of include/rheap_memory.c. */
struct rheap_tried {
    bool ok;
    void *at;
};

struct rheap_tried rattle_alloc(size_t size, size_t align);
struct rheap_tried rattle_realloc(void *at, size_t kept, size_t size, size_t align);
void rattle_dealloc(void *at);

/* A block of so many bytes or more is large there, and begins at a multiple of the second. */
#define LARGE ((size_t)4 << 20)
#define HUGE_PAGE ((size_t)2 << 20)

static int counting = 0;
static long taken = 0;
static long asked = 0;
/* The first piece that is refused; those after it are refused where `all` isn't 0. */
static long refused_at = 0;
static int all = 0;
static int wrong = 0;

/* Whether what is wrong is still to be printed: the first 20 are. */
static int is_told(void) {
    wrong++;
    return wrong <= 20;
}

static int is_refused(void) {
    asked++;
    return asked == refused_at || (all && asked > refused_at);
}

void *__wrap_malloc(size_t size) {
    void *block;
    if (!counting) {
        return __real_malloc(size);
    }
    block = is_refused() ? NULL : __real_malloc(size);
    if (block != NULL) {
        taken++;
    }
    return block;
}

void *__wrap_realloc(void *block, size_t size) {
    void *moved;
    if (!counting) {
        return __real_realloc(block, size);
    }
    moved = is_refused() ? NULL : __real_realloc(block, size);
    if (block == NULL && moved != NULL) {
        taken++;
    }
    return moved;
}

int __wrap_posix_memalign(void **block, size_t align, size_t size) {
    int status;
    if (!counting) {
        return __real_posix_memalign(block, align, size);
    }
    status = is_refused() ? ENOMEM : __real_posix_memalign(block, align, size);
    if (status == 0) {
        taken++;
    }
    return status;
}

void __wrap_free(void *block) {
    if (counting && block != NULL) {
        taken--;
    }
    __real_free(block);
}

static void is(int line, uint8_t got, uint8_t due) {
    if (got != due && is_told()) {
        printf("line %d: %s, not %s\n", line, rheap_name(got), rheap_name(due));
    }
}

/* The status of a call that was to ask for no memory. */
static uint8_t asks_nothing(int line, uint8_t status) {
    if (asked != 0 && is_told()) {
        printf("line %d: the call asked for memory\n", line);
    }
    asked = 0;
    return status;
}

#define QUIET(call) asks_nothing(__LINE__, call)
#define IS(call, status) is(__LINE__, QUIET(call), RHEAP_##status)

/* The words of the heap that is opened. */
static uint32_t words = 4096;

/* Opens one by each call, of which there are so many: of a heap that grows, one that has its most words
   from the beginning. */
enum { OPENINGS = 4 };
static uint8_t opening(rheap *heap, int sized) {
    rheap_growth growth = {0, 0, 200, 4, 32, 1, 5};
    growth.at_least = words;
    growth.at_most = words;
    return sized == 3   ? rheap_open_growth(heap, &growth)
           : sized == 2 ? rheap_open_growing(heap, words, 4, 32, 1, 5)
           : sized      ? rheap_open_sized(heap, words, 4, 32, 1, 5)
                        : rheap_open(heap, words, 2000, 4, 32, 1, 5);
}

/* Opens the heap where each piece of memory is refused once. Whether it is open. */
static int opened(rheap *heap, int sized) {
    uint8_t status = RHEAP_NO_MEMORY;
    all = 0;
    for (refused_at = 1; refused_at < 100 && status == RHEAP_NO_MEMORY; refused_at++) {
        asked = 0;
        status = opening(heap, sized);
        if (status == RHEAP_NO_MEMORY && (heap->at != NULL || heap->grows_at != NULL || taken != 0)) {
            printf("refused at %ld: %ld pieces are left\n", refused_at, taken);
            wrong++;
        }
    }
    /* The last one refused none. */
    if (status != RHEAP_DONE || refused_at < 4 || asked != refused_at - 2) {
        printf("%s after %ld, with %ld asked for\n", rheap_name(status), refused_at, asked);
        wrong++;
    }
    asked = 0;
    return heap->at != NULL || heap->grows_at != NULL;
}

/* Each call on slots of owner 0 by number, of which the first three are used. */
static void each_shared_call(rheap *heap, int64_t number) {
    rheap_value value;
    IS(rheap_shared_alloc_raw(heap, 1, 2), DONE);
    IS(rheap_shared_insist_alloc_raw(heap, 1, 2), DONE);
    IS(rheap_shared_store_int(heap, 1, 1, number), DONE);
    IS(rheap_shared_insist_store_int(heap, 1, 0, number), DONE);
    IS(rheap_shared_alloc(heap, 0, 2), DONE);
    IS(rheap_shared_insist_alloc(heap, 0, 2), DONE);
    IS(rheap_shared_store_nil(heap, 0, 0), DONE);
    IS(rheap_shared_insist_store_nil(heap, 0, 0), DONE);
    IS(rheap_shared_store_root(heap, 0, 1, 1), DONE);
    IS(rheap_shared_insist_store_root(heap, 0, 0, 1), DONE);
    IS(rheap_shared_load(heap, 2, 0, 1, &value), DONE);
    IS(rheap_shared_load_untold(heap, 2, 0, 0), DONE);
    IS(rheap_shared_peek(heap, 2, 1, &value), DONE);
    if (value.number != number && is_told()) {
        printf("a number isn't what was stored\n");
    }
    IS(rheap_shared_copy(heap, 0, 2), DONE);
    IS(rheap_shared_drop(heap, 2), DONE);
    IS(rheap_shared_drop(heap, 5), NO_ROOT);
}

/* Each call on an open heap while all memory is refused, as often as collects by itself. */
static void each_call(rheap *heap) {
    rheap_root_id a = rheap_slot(0, 0);
    rheap_root_id b = rheap_slot(0, 1);
    rheap_root_id c = rheap_slot(0, 2);
    rheap_root_id absent = rheap_slot(0, 5);
    rheap_scope scope = {heap, 0, 3};
    rheap_value value;
    rheap_stats stats;
    rheap_did did;
    rheap_pacing pacing;
    rheap_cycle_reader reader = RHEAP_CYCLE_READER_INIT;
    rheap_ended_cycle cycle;
    rheap_words room;
    int64_t numbers[2] = {1, 2};
    rheap_init values[70];
    char text[14] = "thirteen here";
    uint32_t fields;
    uint32_t count;
    static const uint32_t path[2] = {0, 1};
    uint64_t ticket;
    size_t done;
    uint8_t same;
    int n;

    refused_at = 1;
    all = 1;
    for (n = 0; n < 70; n++) {
        values[n] = rheap_of_int(n);
    }
    for (n = 0; n < 5000; n++) {
        IS(rheap_make(heap, 0, a, 3, values, 2), DONE);
        IS(rheap_insist_make(heap, 0, a, 9, values, 9), DONE);
        IS(rheap_insist_make_raw(heap, 0, a, 70, values, 70), DONE);
        IS(rheap_make_raw(heap, 0, a, 1, values, 2), NO_FIELD);
        IS(rheap_alloc(heap, 0, a, 2), DONE);
        IS(rheap_alloc_raw(heap, 0, b, 2), DONE);
        IS(rheap_store_nil(heap, 0, a, 0), DONE);
        IS(rheap_store_int(heap, 0, b, 1, n), DONE);
        IS(rheap_store_ints(heap, 0, b, 0, numbers, 2), DONE);
        IS(rheap_insist_store_ints(heap, 0, b, 0, numbers, 2), DONE);
        IS(rheap_load_ints(heap, 0, b, 0, numbers, 2, &count), DONE);
        IS(rheap_store_text(heap, 0, b, 0, text, 14), DONE);
        IS(rheap_insist_store_text(heap, 0, b, 0, text, 14), DONE);
        IS(rheap_load_text(heap, 0, b, 0, text, 14, &count), DONE);
        IS(rheap_store_ints(heap, 0, b, 1, numbers, 2), NO_FIELD);
        IS(rheap_store_root(heap, 0, a, 1, b), DONE);
        IS(rheap_load(heap, 0, c, a, 1, &value), DONE);
        IS(rheap_load_untold(heap, 0, c, a, 1), DONE);
        IS(rheap_load(heap, 0, c, absent, 1, &value), NO_ROOT);
        IS(rheap_copy(heap, 0, c, a), DONE);
        IS(rheap_same(heap, 0, a, c, &same), DONE);
        IS(rheap_drop(heap, 0, c), DONE);
        IS(rheap_insist_alloc(heap, 0, a, 2), DONE);
        IS(rheap_insist_alloc_raw(heap, 0, b, 2), DONE);
        IS(rheap_insist_store_nil(heap, 0, a, 0), DONE);
        IS(rheap_insist_store_int(heap, 0, b, 1, n), DONE);
        IS(rheap_insist_store_root(heap, 0, a, 1, b), DONE);
        IS(rheap_root(heap, a, &value), DONE);
        IS(rheap_fields(heap, a, &fields), DONE);
        IS(rheap_field(heap, a, 1, &value), DONE);
        IS(rheap_peek(heap, 0, b, 1, &value), DONE);
        IS(rheap_room(heap, 2, &room), DONE);
        IS(rheap_increment(heap), DONE);
        IS(rheap_stat(heap, &stats), DONE);
        IS(rheap_last_did(heap, &did), DONE);
        IS(rheap_pace(heap, &pacing), DONE);
        IS(rheap_cycle(heap, &reader, &cycle), DONE);
        IS(rheap_watch(heap, 0, a, &ticket), DONE);
        IS(rheap_unwatch(heap, ticket), DONE);
        IS(rheap_next_gone(heap, &ticket, &same), DONE);
        IS(rheap_watch_room(heap, 0), DONE);
        IS(rheap_store_roots(heap, 0, a, 0, b, 2, &done), DONE);
        IS(rheap_insist_store_roots(heap, 0, a, 0, b, 2, &done), DONE);
        IS(rheap_load_roots(heap, 0, c, a, 1, &value, 1, &done), DONE);
        IS(rheap_load_roots_untold(heap, 0, c, a, 1, 1, &done), DONE);
        IS(rheap_store_row(heap, 0, b, 0, values, 2, &done), DONE);
        IS(rheap_insist_store_row(heap, 0, b, 0, values, 2, &done), DONE);
        IS(rheap_load_path(heap, 0, c, a, path, 2, &done, &value), DONE);
        IS(rheap_drop_roots(heap, 0, c, 1, &done), DONE);
        IS(rheap_drop(heap, 0, rheap_push(&scope)), DONE);
        IS(rheap_pop_to(&scope, 3), DONE);
        IS(opening(heap, n % OPENINGS), IS_OPEN);
        IS(rheap_short(heap, &same), DONE);
        each_shared_call(heap, n);
    }
    if (stats.flips < 2) {
        printf("the heap didn't collect\n");
        wrong++;
    }
    IS(rheap_collect(heap), DONE);

    /* A list fills the space: what insists collects. */
    IS(rheap_drop(heap, 0, c), DONE);
    for (n = 0; n < 4096 && QUIET(rheap_insist_alloc(heap, 0, a, 2)) == RHEAP_DONE; n++) {
        IS(rheap_insist_store_root(heap, 0, a, 1, c), DONE);
        IS(rheap_copy(heap, 0, c, a), DONE);
    }
    IS(rheap_alloc(heap, 0, a, 2), SPACE_FULL);
    IS(rheap_insist_alloc_raw(heap, 0, a, 2), SPACE_FULL);
    IS(rheap_collect(heap), DONE);
}

/* Makes room for tickets where each piece of memory is refused once: nothing is changed then, and the
   tickets that are there go on. */
static void tickets(rheap *heap) {
    rheap_root_id a = rheap_slot(0, 0);
    uint64_t ticket;
    uint8_t status = RHEAP_NO_MEMORY;
    long before = taken;
    all = 0;
    for (refused_at = 1; refused_at < 100 && status == RHEAP_NO_MEMORY; refused_at++) {
        asked = 0;
        status = rheap_watch_room(heap, 2);
    }
    /* The last one refused none. Two pieces are taken: one of them stays of a try that was refused the
       other. */
    if (status != RHEAP_DONE || refused_at != 4 || taken != before + 2) {
        printf("tickets: %s after %ld, with %ld asked for\n", rheap_name(status), refused_at, asked);
        wrong++;
    }
    asked = 0;
    IS(rheap_alloc(heap, 0, a, 2), DONE);
    IS(rheap_watch(heap, 0, a, &ticket), DONE);
    refused_at = 1;
    all = 1;
    is(__LINE__, rheap_watch_room(heap, 1), RHEAP_NO_MEMORY);
    asked = 0;
    IS(rheap_watch_room(heap, RHEAP_MAX_TICKETS), TICKETS_RANGE);
    IS(rheap_unwatch(heap, ticket), DONE);
}

/* The buffer that texts are told in. */
static char buffer[100000];

/* Whether no byte of it was written since all were set to '#'. */
static int is_as_set(void) {
    return buffer[0] == '#' && memcmp(buffer, buffer + 1, sizeof buffer - 1) == 0;
}

/* Tells a text where each piece of memory is refused once: nothing is changed then, not a byte of the
   buffer, and nothing stays taken. */
static void text(rheap *heap, uint8_t (*tell)(rheap *, char *, size_t, size_t *)) {
    uint8_t status = RHEAP_NO_MEMORY;
    long before = taken;
    size_t length = 7;
    all = 0;
    for (refused_at = 1; refused_at < 1000 && status == RHEAP_NO_MEMORY; refused_at++) {
        asked = 0;
        memset(buffer, '#', sizeof buffer);
        length = 7;
        status = tell(heap, buffer, sizeof buffer, &length);
        if (status == RHEAP_NO_MEMORY && (!is_as_set() || length != 0 || taken != before)) {
            printf("refused at %ld: %ld pieces are left, of a text of %ld bytes\n", refused_at,
                   taken - before, (long)length);
            wrong++;
        }
    }
    if (status != RHEAP_DONE || refused_at < 4 || length == 0 || taken != before) {
        printf("a text: %s after %ld, with %ld asked for\n", rheap_name(status), refused_at, asked);
        wrong++;
    }
    asked = 0;
}

/* Gives memory back where each piece of memory is refused once: the block that was there stays then. */
static void release(rheap *heap) {
    uint8_t status = RHEAP_NO_MEMORY;
    long before = taken;
    all = 0;
    is(__LINE__, rheap_collect(heap), RHEAP_DONE);
    for (refused_at = 1; refused_at < 100 && status == RHEAP_NO_MEMORY; refused_at++) {
        asked = 0;
        status = rheap_release(heap);
        if (taken != before) {
            printf("a release: %ld pieces more\n", taken - before);
            wrong++;
        }
    }
    if (status != RHEAP_DONE || refused_at < 3) {
        printf("a release: %s after %ld, with %ld asked for\n", rheap_name(status), refused_at, asked);
        wrong++;
    }
    asked = 0;
}

/* Gives the heap more words by either call where each piece of memory is refused once: nothing has
   changed then. Where it has them, fewer ask for no memory, and neither do the same words again. A heap
   that grows asks for none: it chooses its own words. */
static void resizes(rheap *heap, int is_sized) {
    rheap_stats before, after;
    rheap_pacing pacing, other;
    uint8_t status = RHEAP_NO_MEMORY;
    long pieces = taken;
    IS(rheap_stat(heap, &before), DONE);
    IS(rheap_pace(heap, &pacing), DONE);
    if (heap->at == NULL) {
        IS(is_sized ? rheap_resize_sized(heap, 9000, 4) : rheap_resize(heap, 9000, 4000, 4), GROWS);
        return;
    }
    all = 0;
    for (refused_at = 1; refused_at < 100 && status == RHEAP_NO_MEMORY; refused_at++) {
        asked = 0;
        status = is_sized ? rheap_resize_sized(heap, 9000, 4) : rheap_resize(heap, 9000, 4000, 4);
        is(__LINE__, rheap_stat(heap, &after), RHEAP_DONE);
        is(__LINE__, rheap_pace(heap, &other), RHEAP_DONE);
        if (status == RHEAP_NO_MEMORY && (after.free != before.free || other.mark != pacing.mark ||
                                          other.log_limit != pacing.log_limit) && is_told()) {
            printf("a resize: %s, and the heap isn't as it was\n", rheap_name(status));
        }
    }
    if ((status != RHEAP_DONE || refused_at < 4 || taken != pieces ||
         after.free != before.free + (9000 - words)) && is_told()) {
        printf("a resize: %s after %ld, with %ld pieces more\n", rheap_name(status), refused_at,
               taken - pieces);
    }
    asked = 0;
    refused_at = 1;
    all = 1;
    IS(rheap_resize(heap, 9000, 4000, 4), DONE);
    IS(rheap_resize(heap, 5000, 2000, 4), DONE);
    /* Room that was there before is kept, and isn't asked for again; any more is. */
    IS(rheap_resize(heap, 9000, 4000, 4), DONE);
    is(__LINE__, rheap_resize(heap, 10000, 4000, 4), RHEAP_NO_MEMORY);
    asked = 0;
    IS(rheap_resize_sized(heap, words, 4), DONE);
    IS(rheap_resize(heap, words, 2000, 4), DONE);
    IS(rheap_resize(heap, 100, 4000, 4), NO_PACE);
}

/* The ways to make one more cell of a list: each ends cycles by another call. */
enum { INSISTING, MAKING, BY_NUMBER, COLLECTING, STEPPING, WAYS };

/* A cell, where there is room for one. */
static uint8_t new_cell(rheap *heap, int way) {
    rheap_root_id cell = rheap_slot(0, 0);
    int steps;
    if (way == BY_NUMBER) {
        return rheap_shared_insist_alloc(heap, 0, 2);
    }
    for (steps = 0; way == STEPPING && steps < 20; steps++) {
        is(__LINE__, rheap_increment(heap), RHEAP_DONE);
    }
    if (way != INSISTING && rheap_alloc(heap, 0, cell, 2) == RHEAP_DONE) {
        return RHEAP_DONE;
    }
    if (way == COLLECTING) {
        is(__LINE__, rheap_collect(heap), RHEAP_DONE);
        is(__LINE__, rheap_collect(heap), RHEAP_DONE);
        return rheap_alloc(heap, 0, cell, 2);
    }
    return rheap_insist_alloc(heap, 0, cell, 2);
}

/* One more cell before a list. */
static uint8_t push(rheap *heap, int way) {
    rheap_root_id cell = rheap_slot(0, 0);
    rheap_root_id list = rheap_slot(0, 2);
    rheap_init values[2];
    uint8_t status;
    if (way == MAKING) {
        values[0] = rheap_of_int(1);
        values[1] = rheap_of_root(list);
        return rheap_insist_make(heap, 0, list, 2, values, 2);
    }
    status = new_cell(heap, way);
    if (status == RHEAP_DONE) {
        is(__LINE__, rheap_insist_store_root(heap, 0, cell, 1, list), RHEAP_DONE);
        is(__LINE__, rheap_copy(heap, 0, list, cell), RHEAP_DONE);
    }
    return status;
}

/* What a heap that grows says of its words. */
static void is_short(int line, rheap *heap, uint8_t due) {
    uint8_t got = 7;
    is(line, rheap_short(heap, &got), RHEAP_DONE);
    if (got != due && is_told()) {
        printf("line %d: short %d, not %d\n", line, got, due);
    }
}

/* Makes cells until there is no room, 300 at most; how many were made. */
static int pushed(rheap *heap, int way, int others, long first) {
    uint8_t status = RHEAP_DONE;
    int cells = 0;
    asked = 0;
    refused_at = first;
    all = others;
    while (status == RHEAP_DONE && cells < 300) {
        status = push(heap, way);
        cells += status == RHEAP_DONE;
    }
    is(__LINE__, status, others && asked >= first ? RHEAP_SPACE_FULL : RHEAP_DONE);
    is_short(__LINE__, heap, others && asked >= first ? RHEAP_REFUSED : RHEAP_AMPLE);
    all = 0;
    refused_at = 0;
    return cells;
}

/* A heap that grows goes on where all memory for more words is refused from one piece on, or that
   piece alone, and says so; it grows once memory is given. Its object that is watched stays so.
   Whether a piece was refused. */
static int growing(int way, long first, int others) {
    rheap heap = RHEAP_INIT;
    rheap_growth growth = {64, 100000, 200, 4, 32, 1, 5};
    rheap_value value;
    uint64_t ticket, gone;
    uint8_t is_gone;
    int cells, was_refused;
    all = 0;
    refused_at = 0;
    is(__LINE__, rheap_open_growth(&heap, &growth), RHEAP_DONE);
    is(__LINE__, rheap_watch_room(&heap, 1), RHEAP_DONE);
    is(__LINE__, rheap_alloc(&heap, 0, rheap_slot(0, 3), 1), RHEAP_DONE);
    is(__LINE__, rheap_watch(&heap, 0, rheap_slot(0, 3), &ticket), RHEAP_DONE);
    cells = pushed(&heap, way, others, first);
    was_refused = asked >= first;
    is(__LINE__, rheap_collect(&heap), RHEAP_DONE);
    is(__LINE__, rheap_collect(&heap), RHEAP_DONE);
    is_short(__LINE__, &heap, RHEAP_AMPLE);
    is(__LINE__, push(&heap, way), RHEAP_DONE);
    for (cells++; cells > 0; cells--) {
        is(__LINE__, rheap_load(&heap, 0, rheap_slot(0, 2), rheap_slot(0, 2), 1, &value), RHEAP_DONE);
    }
    if (value.kind != RHEAP_NIL && is_told()) {
        printf("the list isn't as long as it was made\n");
    }
    is(__LINE__, rheap_next_gone(&heap, &gone, &is_gone), RHEAP_DONE);
    if (is_gone && is_told()) {
        printf("an object that is reached is told to be gone\n");
    }
    is(__LINE__, rheap_unwatch(&heap, ticket), RHEAP_DONE);
    is(__LINE__, rheap_close(&heap), RHEAP_DONE);
    asked = 0;
    if (taken != 0 && is_told()) {
        printf("%ld pieces of a heap that grows are left after the close\n", taken);
    }
    return was_refused;
}

/* Each piece is refused in turn, alone and with all that are asked for after it. */
static void growing_each_way(void) {
    int way, others;
    long piece;
    for (way = 0; way < WAYS; way++) {
        for (others = 0; others < 2; others++) {
            piece = 1;
            while (piece < 200 && growing(way, piece, others)) {
                piece++;
            }
            if ((piece < 4 || piece == 200) && is_told()) {
                printf("a heap that grows asked for %ld pieces, way %d\n", piece - 1, way);
            }
        }
    }
}

/* Opens and closes the heap where its spaces are large blocks, each refused once. */
static void large_spaces(rheap *heap, int sized) {
    const uint32_t before = words;
    words = 300000;
    if (opened(heap, sized)) {
        IS(rheap_close(heap), DONE);
    }
    if (taken != 0) {
        printf("%ld pieces of large spaces are left after the close\n", taken);
        wrong++;
    }
    words = before;
}

/* The byte that is put at this place of a block. */
static unsigned char byte_at(size_t place) {
    return (unsigned char)(place % 251);
}

/* Whether a block of so many bytes was given where it is to be. */
static int is_given(struct rheap_tried block, size_t size) {
    return block.ok && block.at != NULL && (size_t)block.at % (size < LARGE ? 8 : HUGE_PAGE) == 0;
}

/* Whether the first bytes of the block are those that were put there. */
static int has_bytes(const void *block, size_t bytes) {
    size_t place = 0;
    while (place < bytes && ((const unsigned char *)block)[place] == byte_at(place)) {
        place++;
    }
    return place == bytes;
}

/* Gives a block of so many bytes and makes it one of as many others, where that is refused first. */
static void resized(size_t from, size_t to) {
    const size_t kept = from < to ? from : to;
    struct rheap_tried block = rattle_alloc(from, 8);
    struct rheap_tried other;
    size_t place;
    int is_right = is_given(block, from);
    if (is_right) {
        for (place = 0; place < from; place++) {
            ((unsigned char *)block.at)[place] = byte_at(place);
        }
        refused_at = asked + 1;
        other = rattle_realloc(block.at, kept, to, 8);
        is_right = !other.ok && other.at != NULL && taken == 1 && has_bytes(block.at, from);
        refused_at = 0;
        block = rattle_realloc(block.at, kept, to, 8);
        is_right = is_right && is_given(block, to) && taken == 1 && has_bytes(block.at, kept);
        rattle_dealloc(block.at);
    }
    if ((!is_right || taken != 0) && is_told()) {
        printf("a block of %lu bytes isn't resized to %lu\n", (unsigned long)from, (unsigned long)to);
    }
}

/* Blocks of each size are given, refused, and resized to each. */
static void blocks(void) {
    static const size_t sizes[] = {0, 1, 24, 4096, LARGE - 1, LARGE, LARGE + 1, 3 * LARGE + 5000};
    const size_t count = sizeof sizes / sizeof *sizes;
    struct rheap_tried block;
    size_t from, to;
    all = 0;
    for (from = 0; from < count; from++) {
        refused_at = asked + 1;
        block = rattle_alloc(sizes[from], 8);
        if ((block.ok || block.at == NULL) && is_told()) {
            printf("a block of %lu bytes isn't refused\n", (unsigned long)sizes[from]);
        }
        refused_at = 0;
        for (to = 0; to < count; to++) {
            resized(sizes[from], sizes[to]);
        }
    }
    asked = 0;
}

/* A trace of commands, and what it answers. */
static const char trace[] = "heap 1024 32 64 1 1\n0 alloc 0.0 1\n0 store 0.0 0 7\n";
static const char answer[] = "object 1\ndone\ntotal commands 2 refused 0 flips 0 rootwords 0\n";

/* Runs the trace by either call where each piece of memory is refused once. */
static void traces(int paced) {
    const uint8_t *bytes = (const uint8_t *)trace;
    uint8_t answers[sizeof answer];
    size_t length = 0;
    uint8_t status = RHEAP_RUN_NO_MEMORY;
    all = 0;
    for (refused_at = 1; refused_at < 10000 && status == RHEAP_RUN_NO_MEMORY; refused_at++) {
        asked = 0;
        answers[0] = '?';
        length = 1;
        status = paced ? rheap_run_paced(bytes, sizeof trace - 1, 0, answers, sizeof answers, &length)
                       : rheap_run(bytes, sizeof trace - 1, answers, sizeof answers, &length);
        if (taken != 0 || (status == RHEAP_RUN_NO_MEMORY && (length != 0 || answers[0] != '?'))) {
            printf("a trace, refused at %ld: %ld pieces are left\n", refused_at, taken);
            wrong++;
        }
    }
    /* The last one refused none. */
    if (status != RHEAP_RUN_DONE || refused_at < 4 || asked != refused_at - 2 ||
        length != sizeof answer - 1 || memcmp(answers, answer, length) != 0) {
        printf("a trace: status %d after %ld, with %ld asked for\n", status, refused_at, asked);
        wrong++;
    }
}

/* Opens the largest heap, for which the system has no memory, and then a small one. */
static void where_the_system_refuses(void) {
    rheap heap = RHEAP_INIT;
    is(__LINE__, rheap_open_sized(&heap, RHEAP_MAX_WORDS, 4, 32, 1, 5), RHEAP_NO_MEMORY);
    is(__LINE__, rheap_open(&heap, RHEAP_MAX_WORDS, 1000, 4, 32, 1, 5), RHEAP_NO_MEMORY);
    if (heap.at != NULL || taken != 0) {
        printf("%ld pieces are left\n", taken);
        wrong++;
    }
    is(__LINE__, opening(&heap, 1), RHEAP_DONE);
    is(__LINE__, rheap_close(&heap), RHEAP_DONE);
    if (taken != 0) {
        printf("%ld pieces are left after the close\n", taken);
        wrong++;
    }
}

int main(int argc, char **argv) {
    rheap heap = RHEAP_INIT;
    int sized;

    (void)argv;
    counting = 1;
    if (argc > 1) {
        where_the_system_refuses();
        counting = 0;
        return wrong != 0;
    }
    for (sized = 0; sized < OPENINGS; sized++) {
        if (!opened(&heap, sized)) {
            return 1;
        }
        tickets(&heap);
        text(&heap, rheap_dump);
        text(&heap, rheap_draw);
        release(&heap);
        resizes(&heap, sized);
        each_call(&heap);
        IS(rheap_close(&heap), DONE);
        IS(rheap_close(&heap), NOT_OPEN);
        if (taken != 0) {
            printf("%ld pieces are left after the close\n", taken);
            wrong++;
        }
        large_spaces(&heap, sized);
    }
    growing_each_way();
    blocks();
    IS(rheap_open(&heap, 1000, 100, 4, 3, 2, 8), NO_PACE);
    IS(rheap_open_sized(&heap, 1000, 4, 65, 2, 8), BAD_SIZES);
    traces(0);
    traces(1);
    counting = 0;
    return wrong != 0;
}
