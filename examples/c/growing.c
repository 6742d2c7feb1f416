/* A heap that grows: each call on its handle, what opens it and what refuses to, and a list that makes
   it grow from its least words to its most, and be given back, while its numbers are compared. Prints
   nothing where all is as it should be. Memory is refused in memory.c. */
#include "rheap.h"
#include <stdio.h>
#include <string.h>

static int wrong = 0;

static void expect(const char *call, int line, uint8_t got, uint8_t due) {
    if (got != due) {
        printf("line %d: %s: %s, not %s\n", line, call, rheap_name(got), rheap_name(due));
        wrong = 1;
    }
}

static void expect_number(const char *what, int line, int64_t got, int64_t due) {
    if (got != due) {
        printf("line %d: %s: %ld, not %ld\n", line, what, (long)got, (long)due);
        wrong = 1;
    }
}

#define IS(call, status) expect(#call, __LINE__, call, RHEAP_##status)
#define EQUALS(what, number) expect_number(#what, __LINE__, (int64_t)(what), (int64_t)(number))

/* The words of the space. */
static uint64_t words_of(rheap *heap) {
    rheap_stats stats;
    IS(rheap_stat(heap, &stats), DONE);
    return stats.used + stats.free;
}

static uint8_t short_of(rheap *heap) {
    uint8_t is = 7;
    IS(rheap_short(heap, &is), DONE);
    return is;
}

static rheap_growth growth_to(uint32_t at_least, uint32_t at_most) {
    rheap_growth growth = {0, 0, 200, 4, 32, 2, 8};
    growth.at_least = at_least;
    growth.at_most = at_most;
    return growth;
}

static uint8_t opens(rheap_growth growth) {
    rheap heap = RHEAP_INIT;
    uint8_t status = rheap_open_growth(&heap, &growth);
    if (status == RHEAP_DONE) {
        IS(rheap_close(&heap), DONE);
    }
    IS(rheap_close(&heap), NOT_OPEN);
    return status;
}

/* What opens a heap that grows, and what refuses to. */
static void opening(void) {
    rheap heap = RHEAP_INIT;
    rheap_growth growth = growth_to(16, 4096);
    uint8_t is = 7;
    IS(rheap_short(&heap, &is), NOT_OPEN);
    EQUALS(is, RHEAP_AMPLE);
    IS(opens(growth), DONE);
    growth.factor = 99;
    IS(opens(growth), BAD_GROWTH);
    growth.factor = 1001;
    IS(opens(growth), BAD_GROWTH);
    IS(opens(growth_to(17, 16)), BAD_GROWTH);
    IS(opens(growth_to(16, RHEAP_MAX_WORDS + 1)), BAD_GROWTH);
    growth = growth_to(16, 4096);
    growth.ratio = 3;
    IS(opens(growth), NO_PACE);
    IS(opens(growth_to(8, 4096)), NO_PACE);
    growth.ratio = 65;
    IS(opens(growth), BAD_SIZES);
    growth = growth_to(16, 4096);
    growth.owners = 17;
    IS(opens(growth), BAD_SIZES);
    growth.owners = 0;
    IS(opens(growth), BAD_SIZES);

    IS(rheap_open_growing(&heap, RHEAP_MAX_WORDS + 1, 4, 32, 2, 8), BAD_GROWTH);
    IS(rheap_open_growing(&heap, 4096, 4, 3, 2, 8), NO_PACE);
    IS(rheap_open_growing(&heap, 4096, 4, 32, 2, 257), BAD_SIZES);
    IS(rheap_open_growing(&heap, 4096, 4, 32, 2, 8), DONE);
    EQUALS(words_of(&heap), 4096);
    /* One heap at most is open. */
    growth = growth_to(16, 4096);
    IS(rheap_open_growing(&heap, 4096, 4, 32, 2, 8), IS_OPEN);
    IS(rheap_open_growth(&heap, &growth), IS_OPEN);
    IS(rheap_open(&heap, 4096, 100, 4, 32, 2, 8), IS_OPEN);
    IS(rheap_open_sized(&heap, 4096, 4, 32, 2, 8), IS_OPEN);
    IS(rheap_close(&heap), DONE);
    IS(rheap_close(&heap), NOT_OPEN);
    IS(rheap_open_growing(&heap, 1000000, 4, 32, 2, 8), DONE);
    EQUALS(words_of(&heap), 40000);
    IS(rheap_close(&heap), DONE);
    IS(rheap_open_sized(&heap, 4096, 4, 32, 2, 8), DONE);
    IS(rheap_open_growing(&heap, 4096, 4, 32, 2, 8), IS_OPEN);
    IS(rheap_open_growth(&heap, &growth), IS_OPEN);
    EQUALS(short_of(&heap), RHEAP_AMPLE);
    IS(rheap_close(&heap), DONE);
}

/* Each call on a heap that grows, done and refused. */
static void each_call(void) {
    static const uint32_t path[2] = {1, 1};
    static const int64_t numbers[3] = {5, -6, 7};
    rheap heap = RHEAP_INIT;
    rheap_growth growth = growth_to(64, 4096);
    rheap_root_id a = rheap_slot(1, 0);
    rheap_root_id b = rheap_slot(1, 1);
    rheap_root_id c = rheap_slot(1, 2);
    rheap_value value;
    rheap_value values[3];
    rheap_did did;
    rheap_pacing pacing;
    rheap_words room;
    uint64_t ticket = 7;
    int64_t read[3] = {0, 0, 0};
    char text[8] = "";
    size_t count = 7;
    uint32_t fields = 7;
    uint8_t is = 7;

    IS(rheap_open_growth(&heap, &growth), DONE);
    IS(rheap_alloc(&heap, 1, a, 2), DONE);
    IS(rheap_alloc(&heap, 1, rheap_slot(1, 8), 2), NO_ROOT);
    IS(rheap_alloc_raw(&heap, 1, b, 3), DONE);
    IS(rheap_store_int(&heap, 1, a, 0, 42), DONE);
    IS(rheap_store_int(&heap, 1, a, 2, 42), NO_FIELD);
    IS(rheap_store_root(&heap, 1, a, 1, a), DONE);
    IS(rheap_store_root(&heap, 1, b, 1, a), RAW_FIELD);
    IS(rheap_store_nil(&heap, 1, b, 1), DONE);
    IS(rheap_load(&heap, 1, c, a, 0, &value), DONE);
    EQUALS(value.number, 42);
    IS(rheap_load(&heap, 1, c, a, 9, &value), NO_FIELD);
    EQUALS(value.kind, RHEAP_NIL);
    IS(rheap_load_untold(&heap, 1, c, a, 1), DONE);
    IS(rheap_same(&heap, 1, a, c, &is), DONE);
    EQUALS(is, 1);
    IS(rheap_same(&heap, 1, a, b, &is), DONE);
    EQUALS(is, 0);
    IS(rheap_copy(&heap, 1, c, b), DONE);
    IS(rheap_drop(&heap, 1, c), DONE);
    IS(rheap_root(&heap, b, &value), DONE);
    EQUALS(value.kind, RHEAP_RAW);
    IS(rheap_field(&heap, a, 0, &value), DONE);
    EQUALS(value.number, 42);
    IS(rheap_peek(&heap, 1, a, 0, &value), DONE);
    EQUALS(value.number, 42);
    IS(rheap_fields(&heap, b, &fields), DONE);
    EQUALS(fields, 3);
    IS(rheap_fields(&heap, c, &fields), NOT_OBJECT);
    EQUALS(fields, 0);
    IS(rheap_store_ints(&heap, 1, b, 0, numbers, 3), DONE);
    IS(rheap_store_ints(&heap, 1, b, 1, numbers, 3), NO_FIELD);
    {
        uint32_t done = 7;
        IS(rheap_load_ints(&heap, 1, b, 0, read, 3, &done), DONE);
        EQUALS(done, 3);
        EQUALS(memcmp(read, numbers, sizeof read), 0);
        IS(rheap_insist_store_ints(&heap, 1, b, 1, numbers, 2), DONE);
        IS(rheap_store_text(&heap, 1, b, 0, "abcdefg", 7), DONE);
        IS(rheap_insist_store_text(&heap, 1, b, 1, "hijklmn", 7), DONE);
        IS(rheap_load_text(&heap, 1, b, 0, text, 7, &done), DONE);
        EQUALS(done, 7);
        EQUALS(strcmp(text, "abcdefg"), 0);
    }
    IS(rheap_insist_alloc(&heap, 1, c, 2), DONE);
    IS(rheap_insist_alloc_raw(&heap, 1, rheap_slot(1, 3), 2), DONE);
    IS(rheap_insist_store_nil(&heap, 1, c, 0), DONE);
    IS(rheap_insist_store_int(&heap, 1, c, 0, 9), DONE);
    IS(rheap_insist_store_root(&heap, 1, c, 1, a), DONE);
    IS(rheap_load_roots(&heap, 1, rheap_slot(1, 4), c, 0, values, 2, &count), DONE);
    EQUALS(count, 2);
    EQUALS(values[0].number, 9);
    EQUALS(values[1].fields, 2);
    IS(rheap_load_roots(&heap, 1, rheap_slot(1, 4), c, 1, values, 2, &count), NO_FIELD);
    EQUALS(count, 1);
    IS(rheap_store_roots(&heap, 1, c, 0, a, 1, &count), DONE);
    EQUALS(count, 1);
    IS(rheap_store_roots(&heap, 1, c, 1, a, 2, &count), NO_FIELD);
    EQUALS(count, 1);
    IS(rheap_insist_store_roots(&heap, 1, c, 0, a, 2, &count), DONE);
    EQUALS(count, 2);
    IS(rheap_store_root(&heap, 1, c, 1, a), DONE);
    IS(rheap_load_path(&heap, 1, rheap_slot(1, 5), c, path, 2, &count, &value), DONE);
    EQUALS(count, 2);
    EQUALS(value.fields, 2);
    IS(rheap_drop_roots(&heap, 1, rheap_slot(1, 3), 3, &count), DONE);
    EQUALS(count, 3);
    IS(rheap_drop_roots(&heap, 1, rheap_slot(1, 7), 3, &count), NO_ROOT);
    EQUALS(count, 1);
    IS(rheap_watch(&heap, 1, a, &ticket), WATCHES_FULL);
    IS(rheap_watch_room(&heap, 2), DONE);
    IS(rheap_watch_room(&heap, UINT32_MAX), TICKETS_RANGE);
    IS(rheap_watch(&heap, 1, b, &ticket), DONE);
    EQUALS(ticket, 0);
    IS(rheap_unwatch(&heap, 1), NOT_WATCHED);
    IS(rheap_unwatch(&heap, UINT64_MAX), NOT_WATCHED);
    IS(rheap_next_gone(&heap, &ticket, &is), DONE);
    EQUALS(is, 0);
    IS(rheap_drop(&heap, 1, b), DONE);
    IS(rheap_increment(&heap), DONE);
    IS(rheap_collect(&heap), DONE);
    IS(rheap_collect(&heap), DONE);
    IS(rheap_last_did(&heap, &did), DONE);
    EQUALS(did.flipped, 1);
    IS(rheap_next_gone(&heap, &ticket, &is), DONE);
    EQUALS(is, 1);
    EQUALS(ticket, 0);
    IS(rheap_pace(&heap, &pacing), DONE);
    EQUALS(pacing.store_units, 32);
    IS(rheap_room(&heap, 2, &room), DONE);
    EQUALS(room.need, 4);
    EQUALS(room.free, words_of(&heap) - 8);
    IS(rheap_close(&heap), DONE);
}

/* The same of objects that are made with their values, and of rows of values. */
static void with_values(void) {
    rheap heap = RHEAP_INIT;
    rheap_growth growth = growth_to(64, 16384);
    rheap_root_id a = rheap_slot(1, 0);
    rheap_root_id b = rheap_slot(1, 1);
    rheap_init values[100];
    rheap_value value;
    size_t count = 7;
    size_t length;
    for (length = 0; length < 100; length++) {
        values[length] = rheap_of_int((int64_t)length);
    }
    growth.biggest = 102;
    growth.at_least = 4096;
    IS(rheap_open_growth(&heap, &growth), DONE);
    IS(rheap_alloc(&heap, 1, b, 1), DONE);
    values[0] = rheap_of_root(b);
    values[1] = rheap_of_nil();
    for (length = 2; length <= 100; length += 7) {
        IS(rheap_make(&heap, 1, a, 100, values, length), DONE);
        IS(rheap_peek(&heap, 1, a, 0, &value), DONE);
        EQUALS(value.kind, RHEAP_OBJECT);
        IS(rheap_peek(&heap, 1, a, (uint32_t)length - 1, &value), DONE);
        EQUALS(value.number, length == 2 ? 0 : (int64_t)length - 1);
    }
    IS(rheap_make(&heap, 1, a, 3, values, 4), NO_FIELD);
    IS(rheap_make(&heap, 1, a, 4096, values, 4096), FIELDS_RANGE);
    IS(rheap_make_raw(&heap, 1, a, 100, values, 100), RAW_FIELD);
    IS(rheap_make_raw(&heap, 1, a, 99, values + 1, 99), DONE);
    IS(rheap_insist_make(&heap, 1, a, 4, values, 4), DONE);
    IS(rheap_insist_make_raw(&heap, 1, b, 9, values + 1, 9), DONE);
    IS(rheap_store_row(&heap, 1, a, 1, values, 3, &count), DONE);
    EQUALS(count, 3);
    IS(rheap_store_row(&heap, 1, a, 2, values, 3, &count), NO_FIELD);
    EQUALS(count, 2);
    IS(rheap_insist_store_row(&heap, 1, b, 0, values, 3, &count), RAW_FIELD);
    EQUALS(count, 0);
    IS(rheap_insist_store_row(&heap, 1, b, 0, values + 1, 9, &count), DONE);
    EQUALS(count, 9);
    IS(rheap_load_roots_untold(&heap, 1, rheap_slot(1, 2), a, 0, 4, &count), DONE);
    EQUALS(count, 4);
    IS(rheap_load_roots_untold(&heap, 1, rheap_slot(1, 2), a, 3, 4, &count), NO_FIELD);
    EQUALS(count, 1);
    /* A kind that there isn't. */
    values[2].kind = 4;
    IS(rheap_make(&heap, 1, a, 4, values, 4), BAD_KIND);
    IS(rheap_insist_make(&heap, 1, a, 100, values, 100), BAD_KIND);
    IS(rheap_store_row(&heap, 1, a, 0, values, 3, &count), BAD_KIND);
    EQUALS(count, 0);
    IS(rheap_insist_store_row(&heap, 1, a, 0, values, 3, &count), BAD_KIND);
    EQUALS(count, 0);
    IS(rheap_close(&heap), DONE);
}

/* The same of calls by number. */
static void by_number(void) {
    rheap heap = RHEAP_INIT;
    rheap_growth growth = growth_to(64, 4096);
    rheap_value value;
    IS(rheap_open_growth(&heap, &growth), DONE);
    IS(rheap_shared_alloc(&heap, 0, 2), DONE);
    IS(rheap_shared_alloc_raw(&heap, 1, 2), DONE);
    IS(rheap_shared_alloc(&heap, 8, 2), NO_ROOT);
    IS(rheap_shared_store_int(&heap, 0, 0, 42), DONE);
    IS(rheap_shared_store_root(&heap, 0, 1, 1), DONE);
    IS(rheap_shared_store_root(&heap, 1, 0, 0), RAW_FIELD);
    IS(rheap_shared_store_nil(&heap, 1, 1), DONE);
    IS(rheap_shared_load(&heap, 2, 0, 0, &value), DONE);
    EQUALS(value.number, 42);
    IS(rheap_shared_load(&heap, 2, 0, 2, &value), NO_FIELD);
    IS(rheap_shared_load_untold(&heap, 2, 0, 1), DONE);
    IS(rheap_shared_peek(&heap, 0, 1, &value), DONE);
    EQUALS(value.kind, RHEAP_RAW);
    IS(rheap_shared_copy(&heap, 3, 2), DONE);
    IS(rheap_shared_drop(&heap, 2), DONE);
    IS(rheap_root(&heap, rheap_slot(0, 3), &value), DONE);
    EQUALS(value.kind, RHEAP_RAW);
    IS(rheap_shared_insist_alloc(&heap, 2, 2), DONE);
    IS(rheap_shared_insist_alloc_raw(&heap, 4, 2), DONE);
    IS(rheap_shared_insist_store_nil(&heap, 2, 0), DONE);
    IS(rheap_shared_insist_store_int(&heap, 2, 0, 7), DONE);
    IS(rheap_shared_insist_store_root(&heap, 2, 1, 0), DONE);
    IS(rheap_shared_peek(&heap, 2, 0, &value), DONE);
    EQUALS(value.number, 7);
    IS(rheap_shared_peek(&heap, 2, 1, &value), DONE);
    EQUALS(value.kind, RHEAP_OBJECT);
    IS(rheap_close(&heap), DONE);
}

/* One more cell before the list. */
static uint8_t push(rheap *heap, int64_t number, int insists) {
    rheap_root_id list = rheap_slot(1, 0);
    rheap_root_id cell = rheap_slot(1, 1);
    uint8_t status = insists ? rheap_insist_alloc(heap, 1, cell, 2) : rheap_alloc(heap, 1, cell, 2);
    if (status != RHEAP_DONE) {
        return status;
    }
    /* Where it has too few words, the log may be full too. */
    IS(rheap_insist_store_int(heap, 1, cell, 0, number), DONE);
    IS(rheap_insist_store_root(heap, 1, cell, 1, list), DONE);
    IS(rheap_copy(heap, 1, list, cell), DONE);
    return RHEAP_DONE;
}

/* Compares the numbers of the list, from `last` to `first`. */
static void compare(rheap *heap, int64_t last, int64_t first) {
    rheap_root_id at = rheap_slot(1, 2);
    rheap_value value;
    int64_t number;
    IS(rheap_copy(heap, 1, at, rheap_slot(1, 0)), DONE);
    for (number = last; number >= first; number--) {
        if (rheap_field(heap, at, 0, &value) != RHEAP_DONE || value.number != number) {
            EQUALS(value.number, number);
            return;
        }
        IS(rheap_load(heap, 1, at, at, 1, &value), DONE);
    }
    EQUALS(value.kind, RHEAP_NIL);
    IS(rheap_drop(heap, 1, at), DONE);
}

/* A list that makes the heap grow from its least words to its most, and beyond. */
static void growing(int insists) {
    rheap heap = RHEAP_INIT;
    rheap_growth growth = growth_to(16, 20000);
    uint64_t words = 16;
    uint64_t grown = 0;
    uint8_t status = RHEAP_DONE;
    int64_t number = 0;
    IS(rheap_open_growth(&heap, &growth), DONE);
    EQUALS(words_of(&heap), 16);
    while (status == RHEAP_DONE && number < 10000) {
        status = push(&heap, ++number, insists);
        if (words_of(&heap) != words) {
            EQUALS(words_of(&heap) > words, 1);
            words = words_of(&heap);
            grown++;
            compare(&heap, status == RHEAP_DONE ? number : number - 1, 1);
        }
        /* Where it has enough words, nothing finds too few. */
        if (status != RHEAP_DONE) {
            EQUALS(short_of(&heap), RHEAP_AT_MOST);
        }
    }
    EQUALS(status, RHEAP_SPACE_FULL);
    EQUALS(words, 20000);
    EQUALS(grown > 5, 1);
    compare(&heap, number - 1, 1);
    /* Without the list it has the least words again. */
    IS(rheap_drop(&heap, 1, rheap_slot(1, 0)), DONE);
    IS(rheap_drop(&heap, 1, rheap_slot(1, 1)), DONE);
    IS(rheap_collect(&heap), DONE);
    IS(rheap_collect(&heap), DONE);
    EQUALS(words_of(&heap) <= 32, 1);
    EQUALS(short_of(&heap), RHEAP_AMPLE);
    IS(push(&heap, 1, insists), DONE);
    compare(&heap, 1, 1);
    IS(rheap_close(&heap), DONE);
}

int main(void) {
    opening();
    each_call();
    with_values();
    by_number();
    growing(0);
    growing(1);
    return wrong;
}
