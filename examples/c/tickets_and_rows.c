/* Tickets, roots in a row and paths: each status that their calls answer, what they tell then, and
   what they leave. Prints nothing where all is as it should be. */
#include "rheap.h"
#include <stdio.h>
#include <string.h>

static int wrong = 0;

static void expect(const char *call, int line, uint8_t got, uint8_t due) {
    if (got != due) {
        printf("line %d: %s: %s, not %s\n", line, call, rheap_name(got), rheap_name(due));
        wrong = 1;
    }
}

static void expect_number(const char *what, int line, int64_t got, int64_t due) {
    if (got != due) {
        printf("line %d: %s: %ld, not %ld\n", line, what, (long)got, (long)due);
        wrong = 1;
    }
}

#define IS(call, status) expect(#call, __LINE__, call, RHEAP_##status)
#define EQUALS(what, number) expect_number(#what, __LINE__, (int64_t)(what), (int64_t)(number))

/* The next ticket that is told, and -1 where there is none. */
static int64_t next_gone(rheap *heap) {
    uint64_t ticket = 7;
    uint8_t is = 7;
    IS(rheap_next_gone(heap, &ticket, &is), DONE);
    EQUALS(is == 0 || is == 1, 1);
    if (is == 0) {
        EQUALS(ticket, 0);
    }
    return is == 1 ? (int64_t)ticket : -1;
}

/* Lets the heap tell each object that isn't reached. */
static void collect_twice(rheap *heap) {
    IS(rheap_collect(heap), DONE);
    IS(rheap_collect(heap), DONE);
}

static void without_a_heap(rheap *heap) {
    static const uint32_t path[2] = {0, 0};
    rheap_root_id root = rheap_slot(0, 0);
    rheap_value values[2];
    uint64_t ticket = 7;
    size_t count = 7;
    uint8_t is = 7;
    memset(values, 0x5a, sizeof values);
    IS(rheap_watch_room(heap, 1), NOT_OPEN);
    IS(rheap_watch(heap, 0, root, &ticket), NOT_OPEN);
    EQUALS(ticket, 0);
    IS(rheap_unwatch(heap, 0), NOT_OPEN);
    ticket = 7;
    IS(rheap_next_gone(heap, &ticket, &is), NOT_OPEN);
    EQUALS(ticket, 0);
    EQUALS(is, 0);
    IS(rheap_load_roots(heap, 0, root, root, 0, values, 2, &count), NOT_OPEN);
    EQUALS(count, 0);
    EQUALS(values[0].kind, 0x5a5a5a5a);
    count = 7;
    IS(rheap_store_roots(heap, 0, root, 0, root, 2, &count), NOT_OPEN);
    EQUALS(count, 0);
    count = 7;
    IS(rheap_insist_store_roots(heap, 0, root, 0, root, 2, &count), NOT_OPEN);
    EQUALS(count, 0);
    count = 7;
    IS(rheap_drop_roots(heap, 0, root, 2, &count), NOT_OPEN);
    EQUALS(count, 0);
    count = 7;
    IS(rheap_load_path(heap, 0, root, root, path, 2, &count, values), NOT_OPEN);
    EQUALS(count, 0);
    EQUALS(values[0].kind, RHEAP_NIL);
}

/* Tickets on a new heap of three owners with eight slots each. */
static void tickets(rheap *heap) {
    rheap_root_id mine = rheap_slot(1, 0);
    rheap_root_id other = rheap_slot(1, 1);
    rheap_root_id theirs = rheap_slot(2, 0);
    rheap_root_id shared = rheap_slot(0, 0);
    rheap_value value;
    uint64_t ticket = 7;

    IS(rheap_alloc(heap, 1, mine, 1), DONE);
    IS(rheap_alloc(heap, 2, theirs, 1), DONE);
    /* A new heap has no ticket. */
    IS(rheap_watch(heap, 1, mine, &ticket), WATCHES_FULL);
    EQUALS(ticket, 0);
    EQUALS(next_gone(heap), -1);
    IS(rheap_watch_room(heap, 0), DONE);
    IS(rheap_watch(heap, 1, mine, &ticket), WATCHES_FULL);
    IS(rheap_watch_room(heap, RHEAP_MAX_TICKETS + 1), TICKETS_RANGE);
    IS(rheap_watch_room(heap, UINT32_MAX), TICKETS_RANGE);
    IS(rheap_watch_room(heap, 2), DONE);
    IS(rheap_watch_room(heap, RHEAP_MAX_TICKETS - 1), TICKETS_RANGE);
    IS(rheap_watch_room(heap, UINT32_MAX), TICKETS_RANGE);
    IS(rheap_watch_room(heap, 1), DONE);

    /* What may not be watched. */
    IS(rheap_watch(heap, 3, mine, &ticket), NO_ROOT);
    IS(rheap_watch(heap, 1, rheap_slot(1, 8), &ticket), NO_ROOT);
    IS(rheap_watch(heap, 1, theirs, &ticket), NOT_YOURS);
    IS(rheap_watch(heap, 1, other, &ticket), NOT_OBJECT);
    EQUALS(ticket, 0);

    /* Three tickets, two of them for one object. */
    IS(rheap_copy(heap, 1, shared, mine), DONE);
    IS(rheap_watch(heap, 1, mine, &ticket), DONE);
    EQUALS(ticket, 0);
    IS(rheap_watch(heap, 1, shared, &ticket), DONE);
    EQUALS(ticket, 1);
    IS(rheap_watch(heap, 2, theirs, &ticket), DONE);
    EQUALS(ticket, 2);
    IS(rheap_watch(heap, 2, theirs, &ticket), WATCHES_FULL);

    /* While a root reaches the object, wherever it moves, none is told. */
    collect_twice(heap);
    EQUALS(next_gone(heap), -1);
    IS(rheap_drop(heap, 1, mine), DONE);
    collect_twice(heap);
    EQUALS(next_gone(heap), -1);

    /* Each is told once, in the order of their numbers. */
    IS(rheap_drop(heap, 1, shared), DONE);
    EQUALS(next_gone(heap), -1);
    collect_twice(heap);
    EQUALS(next_gone(heap), 0);
    EQUALS(next_gone(heap), 1);
    EQUALS(next_gone(heap), -1);
    collect_twice(heap);
    EQUALS(next_gone(heap), -1);

    /* A ticket that was told is free, and is given again. One that is freed isn't told. */
    IS(rheap_unwatch(heap, 0), NOT_WATCHED);
    IS(rheap_unwatch(heap, 3), NOT_WATCHED);
    IS(rheap_unwatch(heap, UINT64_C(4294967298)), NOT_WATCHED);
    IS(rheap_unwatch(heap, UINT64_MAX), NOT_WATCHED);
    IS(rheap_watch(heap, 2, theirs, &ticket), DONE);
    EQUALS(ticket, 0);
    IS(rheap_unwatch(heap, 2), DONE);
    IS(rheap_unwatch(heap, 2), NOT_WATCHED);
    IS(rheap_drop(heap, 2, theirs), DONE);
    collect_twice(heap);
    /* Gone and not told yet: it can't be freed. */
    IS(rheap_unwatch(heap, 0), NOT_WATCHED);
    EQUALS(next_gone(heap), 0);
    EQUALS(next_gone(heap), -1);

    /* A watched object that another one reaches stays. */
    IS(rheap_alloc(heap, 1, mine, 1), DONE);
    IS(rheap_alloc(heap, 1, other, 1), DONE);
    IS(rheap_watch(heap, 1, other, &ticket), DONE);
    IS(rheap_store_root(heap, 1, mine, 0, other), DONE);
    IS(rheap_drop(heap, 1, other), DONE);
    collect_twice(heap);
    EQUALS(next_gone(heap), -1);
    IS(rheap_load(heap, 1, other, mine, 0, &value), DONE);
    EQUALS(value.kind, RHEAP_OBJECT);
    IS(rheap_drop(heap, 1, other), DONE);
    IS(rheap_store_nil(heap, 1, mine, 0), DONE);
    collect_twice(heap);
    EQUALS(next_gone(heap), (int64_t)ticket);

    /* A heap at its own pace tells them without a call that collects. */
    IS(rheap_watch(heap, 1, mine, &ticket), DONE);
    IS(rheap_drop(heap, 1, mine), DONE);
    for (value.fields = 0; value.fields < 4000; value.fields++) {
        IS(rheap_alloc(heap, 1, other, 8), DONE);
    }
    EQUALS(next_gone(heap), (int64_t)ticket);
    IS(rheap_drop(heap, 1, other), DONE);
}

static int64_t number_at(rheap *heap, rheap_root_id root, uint32_t field) {
    rheap_value value;
    IS(rheap_field(heap, root, field, &value), DONE);
    return value.kind == RHEAP_NUMBER ? value.number : -1;
}

/* Whether two roots hold equal values. */
static int are_same(rheap *heap, rheap_root_id a, rheap_root_id b) {
    uint8_t same;
    IS(rheap_same(heap, 1, a, b, &same), DONE);
    return same;
}

static void rows(rheap *heap) {
    rheap_root_id frame = rheap_slot(1, 0);
    rheap_root_id row = rheap_slot(1, 2);
    rheap_root_id again = rheap_slot(1, 5);
    rheap_root_id raw = rheap_slot(1, 1);
    rheap_value values[9];
    size_t count = 7;
    uint32_t n;

    /* Three objects in slots 2 to 4, which hold 0, 1 and 2. */
    IS(rheap_alloc(heap, 1, frame, 5), DONE);
    for (n = 0; n < 3; n++) {
        IS(rheap_alloc(heap, 1, rheap_slot(1, 2 + n), n + 1), DONE);
        IS(rheap_store_int(heap, 1, rheap_slot(1, 2 + n), n, n), DONE);
    }
    IS(rheap_store_roots(heap, 1, frame, 1, row, 3, &count), DONE);
    EQUALS(count, 3);
    IS(rheap_store_int(heap, 1, frame, 4, 44), DONE);
    memset(values, 0x5a, sizeof values);
    IS(rheap_load_roots(heap, 1, again, frame, 1, values, 3, &count), DONE);
    EQUALS(count, 3);
    for (n = 0; n < 3; n++) {
        EQUALS(are_same(heap, rheap_slot(1, 2 + n), rheap_slot(1, 5 + n)), 1);
        EQUALS(number_at(heap, rheap_slot(1, 5 + n), n), n);
        EQUALS(values[n].kind, RHEAP_OBJECT);
        EQUALS(values[n].fields, n + 1);
    }
    EQUALS(values[3].kind, 0x5a5a5a5a);
    /* Numbers and nil too. */
    IS(rheap_load_roots(heap, 1, again, frame, 4, values, 1, &count), DONE);
    EQUALS(count, 1);
    EQUALS(values[0].number, 44);
    IS(rheap_load_roots(heap, 1, again, frame, 0, values, 1, &count), DONE);
    EQUALS(values[0].kind, RHEAP_NIL);
    /* Nothing. */
    IS(rheap_load_roots(heap, 9, again, frame, 0, values, 0, &count), DONE);
    EQUALS(count, 0);
    IS(rheap_store_roots(heap, 9, again, 0, frame, 0, &count), DONE);
    EQUALS(count, 0);
    IS(rheap_drop_roots(heap, 9, frame, 0, &count), DONE);
    EQUALS(count, 0);

    /* Up to the first that is refused: past the last field, past the last slot. */
    memset(values, 0x5a, sizeof values);
    IS(rheap_load_roots(heap, 1, again, frame, 3, values, 3, &count), NO_FIELD);
    EQUALS(count, 2);
    EQUALS(values[1].number, 44);
    EQUALS(values[2].kind, 0x5a5a5a5a);
    EQUALS(are_same(heap, again, rheap_slot(1, 4)), 1);
    IS(rheap_load_roots(heap, 1, again, frame, 0, values, 5, &count), NO_ROOT);
    EQUALS(count, 3);
    IS(rheap_load_roots(heap, 1, again, frame, UINT32_MAX, values, 5, &count), NO_FIELD);
    EQUALS(count, 0);
    IS(rheap_load_roots(heap, 1, rheap_slot(1, UINT32_MAX), frame, 0, values, 5, &count), NO_ROOT);
    EQUALS(count, 0);
    IS(rheap_load_roots(heap, 2, rheap_slot(2, 0), frame, 0, values, 5, &count), NOT_YOURS);
    EQUALS(count, 0);
    IS(rheap_store_roots(heap, 1, frame, 3, row, 3, &count), NO_FIELD);
    EQUALS(count, 2);
    IS(rheap_store_roots(heap, 1, frame, 0, rheap_slot(1, 6), 3, &count), NO_ROOT);
    EQUALS(count, 2);
    IS(rheap_store_roots(heap, 1, frame, UINT32_MAX, row, 3, &count), NO_FIELD);
    EQUALS(count, 0);
    IS(rheap_insist_store_roots(heap, 1, frame, 3, row, 3, &count), NO_FIELD);
    EQUALS(count, 2);
    IS(rheap_insist_store_roots(heap, 1, frame, 1, row, 3, &count), DONE);
    EQUALS(count, 3);
    IS(rheap_alloc_raw(heap, 1, raw, 3), DONE);
    IS(rheap_drop(heap, 1, rheap_slot(1, 6)), DONE);
    IS(rheap_store_roots(heap, 1, raw, 0, rheap_slot(1, 6), 2, &count), RAW_FIELD);
    EQUALS(count, 1);

    /* A row that takes the place of the root that names its object, at its end. */
    IS(rheap_copy(heap, 1, rheap_slot(1, 7), frame), DONE);
    IS(rheap_load_roots(heap, 1, again, rheap_slot(1, 7), 1, values, 3, &count), DONE);
    EQUALS(count, 3);
    EQUALS(are_same(heap, rheap_slot(1, 7), rheap_slot(1, 4)), 1);
    /* And before it: the next field is one of the object that the root names then. */
    IS(rheap_copy(heap, 1, again, frame), DONE);
    IS(rheap_load_roots(heap, 1, again, again, 1, values, 2, &count), NO_FIELD);
    EQUALS(count, 1);
    EQUALS(are_same(heap, again, row), 1);

    /* Drops. */
    IS(rheap_drop_roots(heap, 1, rheap_slot(1, 6), 3, &count), NO_ROOT);
    EQUALS(count, 2);
    IS(rheap_drop_roots(heap, 1, row, 3, &count), DONE);
    EQUALS(count, 3);
    for (n = 2; n < 5; n++) {
        IS(rheap_root(heap, rheap_slot(1, n), values), DONE);
        EQUALS(values[0].kind, RHEAP_NIL);
    }
    IS(rheap_drop_roots(heap, 1, rheap_slot(2, 0), 1, &count), NOT_YOURS);
    IS(rheap_drop_roots(heap, 1, frame, 2, &count), DONE);
}

/* A list of cells of a value and a rest: 0, 1, 2 from its front. */
static void paths(rheap *heap) {
    static const uint32_t car[1] = {0};
    static const uint32_t caddr[3] = {1, 1, 0};
    static const uint32_t past_cadr[3] = {1, 0, 0};
    static const uint32_t rest[5] = {1, 1, 1, 1, 1};
    rheap_root_id list = rheap_slot(1, 0);
    rheap_root_id cell = rheap_slot(1, 1);
    rheap_root_id dst = rheap_slot(1, 2);
    rheap_value value;
    size_t count = 7;
    int64_t n;
    for (n = 2; n >= 0; n--) {
        IS(rheap_alloc(heap, 1, cell, 2), DONE);
        IS(rheap_store_int(heap, 1, cell, 0, n), DONE);
        IS(rheap_store_root(heap, 1, cell, 1, list), DONE);
        IS(rheap_copy(heap, 1, list, cell), DONE);
    }
    IS(rheap_load_path(heap, 1, dst, list, car, 1, &count, &value), DONE);
    EQUALS(count, 1);
    EQUALS(value.number, 0);
    IS(rheap_load_path(heap, 1, dst, list, caddr, 3, &count, &value), DONE);
    EQUALS(count, 3);
    EQUALS(value.number, 2);
    EQUALS(are_same(heap, list, cell), 1);
    IS(rheap_load_path(heap, 1, dst, list, caddr, 0, &count, &value), DONE);
    EQUALS(count, 0);
    EQUALS(value.kind, RHEAP_NIL);
    IS(rheap_root(heap, dst, &value), DONE);
    EQUALS(value.number, 2);
    /* The rest of the last cell is nil. */
    IS(rheap_load_path(heap, 1, dst, list, rest, 5, &count, &value), NOT_OBJECT);
    EQUALS(count, 3);
    EQUALS(value.kind, RHEAP_NIL);
    /* A number has no fields: `value` is the last that was loaded, and the root holds it. */
    IS(rheap_load_path(heap, 1, dst, list, past_cadr, 3, &count, &value), NOT_OBJECT);
    EQUALS(count, 2);
    EQUALS(value.kind, RHEAP_NUMBER);
    EQUALS(value.number, 1);
    IS(rheap_root(heap, dst, &value), DONE);
    EQUALS(value.kind, RHEAP_NUMBER);
    EQUALS(value.number, 1);
    IS(rheap_load_path(heap, 1, dst, list, rest, 2, &count, &value), DONE);
    EQUALS(value.fields, 2);
    EQUALS(number_at(heap, dst, 0), 2);
    IS(rheap_load_path(heap, 1, dst, list, caddr + 1, 1, &count, &value), DONE);
    IS(rheap_load_path(heap, 1, dst, dst, caddr + 1, 2, &count, &value), DONE);
    EQUALS(value.number, 2);
    /* A number has no fields, and the root that the path came to stays. */
    IS(rheap_load_path(heap, 1, dst, dst, car, 1, &count, &value), NOT_OBJECT);
    EQUALS(count, 0);
    EQUALS(value.kind, RHEAP_NIL);
    IS(rheap_load_path(heap, 2, rheap_slot(2, 0), list, car, 1, &count, &value), NOT_YOURS);
    IS(rheap_load_path(heap, 1, rheap_slot(1, 8), list, car, 1, &count, &value), NO_ROOT);
    IS(rheap_drop_roots(heap, 1, list, 3, &count), DONE);
}

/* In a cycle a row meets a full log in the middle; one that insists doesn't. */
static void full_log(void) {
    rheap heap = RHEAP_INIT;
    rheap_root_id object = rheap_slot(0, 0);
    rheap_root_id filler = rheap_slot(0, 1);
    rheap_value value;
    rheap_pacing pacing;
    rheap_stats stats;
    size_t count = 0;
    uint32_t turn;
    int limited = 0;
    /* More lives than the pace expects, and so stores fill the log. */
    IS(rheap_open(&heap, 1000, 10, 29, 4, 1, 256), DONE);
    IS(rheap_pace(&heap, &pacing), DONE);
    IS(rheap_alloc(&heap, 0, object, 250), DONE);
    for (turn = 0; turn < 2000 && !limited; turn++) {
        uint8_t status = rheap_store_roots(&heap, 0, object, 0, rheap_slot(0, 2), 250, &count);
        limited = status == RHEAP_LOG_FULL;
        if (limited) {
            IS(rheap_stat(&heap, &stats), DONE);
            EQUALS(stats.cycle, 1);
            EQUALS(count < 250, 1);
            EQUALS(stats.log, pacing.log_limit);
            IS(rheap_insist_store_roots(&heap, 0, object, 0, rheap_slot(0, 2), 250, &count), DONE);
            EQUALS(count, 250);
        } else {
            expect("rheap_store_roots", __LINE__, status, RHEAP_DONE);
            (void)rheap_insist_alloc(&heap, 0, filler, 20);
        }
    }
    if (!limited) {
        printf("the log was never full\n");
        wrong = 1;
    }
    IS(rheap_root(&heap, object, &value), DONE);
    EQUALS(value.fields, 250);
    IS(rheap_close(&heap), DONE);
}

int main(void) {
    rheap heap = RHEAP_INIT;
    without_a_heap(&heap);
    IS(rheap_open_sized(&heap, 4096, 20, 32, 3, 8), DONE);
    if (heap.at == NULL) {
        return 1;
    }
    tickets(&heap);
    rows(&heap);
    paths(&heap);
    IS(rheap_close(&heap), DONE);
    without_a_heap(&heap);
    full_log();
    return wrong;
}
