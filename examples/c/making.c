/* Objects that are made with their values: each status of the calls, what is left after a refusal,
   values of each kind, how many they may be, and a list that is made of what its own root holds. Prints
   nothing where all is as it should be. */
#include "rheap.h"
#include <stdio.h>
#include <string.h>

static int wrong = 0;
static rheap heap = RHEAP_INIT;

static void expect(const char *call, int line, uint8_t got, uint8_t due) {
    if (got != due) {
        printf("line %d: %s: %s, not %s\n", line, call, rheap_name(got), rheap_name(due));
        wrong = 1;
    }
}

static void expect_number(const char *what, int line, int64_t got, int64_t due) {
    if (got != due) {
        printf("line %d: %s: %ld, not %ld\n", line, what, (long)got, (long)due);
        wrong = 1;
    }
}

#define IS(call, status) expect(#call, __LINE__, call, RHEAP_##status)
#define EQUALS(what, number) expect_number(#what, __LINE__, (int64_t)(what), (int64_t)(number))

/* The four calls, which are tried alike. */
typedef uint8_t making(rheap *, uint32_t, rheap_root_id, uint32_t, const rheap_init *, size_t);
static making *const calls[] = {rheap_make, rheap_make_raw, rheap_insist_make, rheap_insist_make_raw};
#define IS_RAW(call) ((call) % 2 == 1)

static rheap_value field_of(rheap_root_id object, uint32_t field) {
    rheap_value value;
    memset(&value, 0x5a, sizeof value);
    IS(rheap_field(&heap, object, field, &value), DONE);
    return value;
}

static uint64_t used(void) {
    rheap_stats stats;
    IS(rheap_stat(&heap, &stats), DONE);
    return stats.used;
}

static rheap_value held(rheap_root_id root) {
    rheap_value value;
    memset(&value, 0x5a, sizeof value);
    IS(rheap_root(&heap, root, &value), DONE);
    return value;
}

/* Each kind of value, by both kinds that mean a root, and with junk where it isn't looked at. */
static void each_kind(unsigned call) {
    rheap_root_id dst = rheap_slot(1, 0), number = rheap_slot(1, 1), object = rheap_slot(0, 0);
    rheap_init values[6];
    rheap_value value;
    uint8_t same;
    memset(values, 0x5a, sizeof values);
    values[0] = rheap_of_int(RHEAP_MAX_INT);
    IS(rheap_make(&heap, 1, object, 1, values, 1), DONE);
    IS(rheap_load(&heap, 1, number, object, 0, &value), DONE);
    values[0].kind = RHEAP_NIL;
    values[1].kind = RHEAP_NUMBER;
    values[1].number = RHEAP_MIN_INT;
    values[2].kind = RHEAP_OBJECT;
    values[2].root = number;
    values[3].kind = RHEAP_RAW;
    values[3].root = IS_RAW(call) ? number : object;
    values[4] = rheap_of_root(rheap_slot(1, 2));
    IS(rheap_drop(&heap, 1, rheap_slot(1, 2)), DONE);
    EQUALS(calls[call](&heap, 1, dst, 7, values, 5), RHEAP_DONE);
    value = held(dst);
    EQUALS(value.kind, IS_RAW(call) ? RHEAP_RAW : RHEAP_OBJECT);
    EQUALS(value.fields, 7);
    EQUALS(field_of(dst, 0).kind, RHEAP_NIL);
    EQUALS(field_of(dst, 1).kind, RHEAP_NUMBER);
    EQUALS(field_of(dst, 1).number, RHEAP_MIN_INT);
    EQUALS(field_of(dst, 2).number, RHEAP_MAX_INT);
    if (IS_RAW(call)) {
        EQUALS(field_of(dst, 3).number, RHEAP_MAX_INT);
    } else {
        IS(rheap_load(&heap, 1, rheap_slot(1, 2), dst, 3, &value), DONE);
        IS(rheap_same(&heap, 1, rheap_slot(1, 2), object, &same), DONE);
        EQUALS(same, 1);
    }
    EQUALS(field_of(dst, 4).kind, RHEAP_NIL);
    EQUALS(field_of(dst, 5).kind, RHEAP_NIL);
    EQUALS(field_of(dst, 6).kind, RHEAP_NIL);
}

/* What each call refuses, in the order of the header; nothing is made, and `dst` is as it was. */
static void each_refusal(unsigned call) {
    rheap_root_id dst = rheap_slot(1, 0), object = rheap_slot(1, 1), gone = rheap_slot(1, 9);
    static rheap_init values[RHEAP_MAX_FIELDS + 1];
    uint64_t before;
    uint32_t k;
    making *const made = calls[call];
    for (k = 0; k <= RHEAP_MAX_FIELDS; k++) {
        values[k] = rheap_of_nil();
    }
    IS(rheap_alloc(&heap, 1, object, 0), DONE);
    IS(rheap_drop(&heap, 1, dst), DONE);
    before = used();
    /* Too many values come before a bad kind, and that before all that the heap is asked. */
    values[2].kind = RHEAP_RAW + 1;
    IS(made(&heap, 9, gone, 2, values, RHEAP_MAX_FIELDS + 1), FIELDS_RANGE);
    IS(made(&heap, 9, gone, 2, values, 3), BAD_KIND);
    IS(made(&heap, 9, gone, 2, values, RHEAP_MAX_FIELDS), BAD_KIND);
    values[2].kind = UINT32_MAX;
    IS(made(&heap, 1, dst, 8, values, 3), BAD_KIND);
    values[2] = rheap_of_nil();
    IS(made(&heap, 9, dst, 2, values, 2), NO_ROOT);
    IS(made(&heap, 1, gone, 2, values, 2), NO_ROOT);
    IS(made(&heap, 1, rheap_slot(2, 0), 2, values, 2), NOT_YOURS);
    IS(made(&heap, 1, dst, RHEAP_MAX_FIELDS + 1, values, 2), FIELDS_RANGE);
    /* The first value that is wrong decides, by what comes first of it. */
    values[0] = rheap_of_root(rheap_slot(2, 0));
    values[1] = rheap_of_root(gone);
    IS(made(&heap, 1, dst, 2, values, 2), NOT_YOURS);
    IS(made(&heap, 1, dst, 2, values + 1, 2), NO_ROOT);
    IS(made(&heap, 1, dst, 0, values + 1, 1), NO_ROOT);
    values[0] = rheap_of_int(RHEAP_MAX_INT + 1);
    IS(made(&heap, 1, dst, 2, values, 2), INT_RANGE);
    IS(made(&heap, 1, dst, 0, values, 1), NO_FIELD);
    values[1] = rheap_of_int(RHEAP_MIN_INT - 1);
    IS(made(&heap, 1, dst, 2, values + 1, 1), INT_RANGE);
    values[0] = rheap_of_root(object);
    values[1] = rheap_of_nil();
    EQUALS(made(&heap, 1, dst, 1, values, 2), IS_RAW(call) ? RHEAP_RAW_FIELD : RHEAP_NO_FIELD);
    EQUALS(made(&heap, 1, dst, 2, values, 2), IS_RAW(call) ? RHEAP_RAW_FIELD : RHEAP_DONE);
    if (!IS_RAW(call)) {
        before += 4;
    } else {
        EQUALS(held(dst).kind, RHEAP_NIL);
    }
    EQUALS(used(), before);
}

/* Up to 8 values, up to 64 and more go three ways: each number of values next to the ends of these is
   tried, and all that an object may have. */
static void each_length(unsigned call) {
    static const uint32_t lengths[] = {0, 1, 7, 8, 9, 10, 63, 64, 65, 1000, 4094, 4095};
    static rheap_init values[RHEAP_MAX_FIELDS];
    rheap_root_id dst = rheap_slot(1, 0), kept = rheap_slot(1, 1);
    rheap_value value;
    uint32_t at, k;
    IS(rheap_alloc_raw(&heap, 1, kept, 1), DONE);
    IS(rheap_store_int(&heap, 1, kept, 0, -7), DONE);
    IS(rheap_load(&heap, 1, kept, kept, 0, &value), DONE);
    for (at = 0; at < sizeof lengths / sizeof lengths[0]; at++) {
        const uint32_t length = lengths[at];
        const uint32_t fields = length == RHEAP_MAX_FIELDS ? length : length + 1;
        for (k = 0; k < length; k++) {
            values[k] = k % 3 == 2 ? rheap_of_root(kept) : k % 3 == 1 ? rheap_of_nil() : rheap_of_int(k);
        }
        EQUALS(calls[call](&heap, 1, dst, fields, values, length), RHEAP_DONE);
        EQUALS(held(dst).fields, fields);
        for (k = 0; k < fields; k++) {
            value = field_of(dst, k);
            EQUALS(value.kind, k == length || k % 3 == 1 ? RHEAP_NIL : RHEAP_NUMBER);
            EQUALS(value.number, k == length || k % 3 == 1 ? 0 : k % 3 == 2 ? -7 : (int64_t)k);
        }
        if (length > 0) {
            /* A value that is wrong is found, also the last one. */
            values[length - 1] = rheap_of_int(RHEAP_MAX_INT + 1);
            IS(calls[call](&heap, 1, dst, fields, values, length), INT_RANGE);
            values[length - 1].kind = RHEAP_RAW + 1;
            IS(calls[call](&heap, 1, dst, fields, values, length), BAD_KIND);
            if (length > 1 || fields > 1) {
                IS(calls[call](&heap, 1, dst, length - 1, values, length), BAD_KIND);
                values[length - 1] = rheap_of_nil();
                IS(calls[call](&heap, 1, dst, length - 1, values, length), NO_FIELD);
            }
            EQUALS(held(dst).fields, fields);
        }
    }
}

/* Lists that are made of what their own root holds, over many cycles; `calls` of them insist. Each
   hundred cells the list is let go. */
static void lists(unsigned call, uint32_t words) {
    rheap_root_id list = rheap_slot(1, 0), at = rheap_slot(1, 1);
    rheap_init cell[2];
    rheap_value value;
    rheap_stats stats;
    int64_t n, left;
    IS(rheap_open_sized(&heap, words, 4, 32, 2, 2), DONE);
    for (n = 0; n < 6000; n++) {
        if (n % 100 == 0) {
            cell[1] = rheap_of_nil();
        }
        cell[0] = rheap_of_int(n);
        EQUALS(calls[call](&heap, 1, list, 2, cell, 2), RHEAP_DONE);
        cell[1] = rheap_of_root(list);
        if (n % 1000 == 99) {
            IS(rheap_copy(&heap, 1, at, list), DONE);
            value = held(at);
            for (left = n; value.kind == RHEAP_OBJECT; left--) {
                EQUALS(field_of(at, 0).number, left);
                IS(rheap_load(&heap, 1, at, at, 1, &value), DONE);
            }
            EQUALS(left, n - 100);
            EQUALS(value.kind, RHEAP_NIL);
        }
    }
    IS(rheap_stat(&heap, &stats), DONE);
    EQUALS(stats.flips > 10, 1);
    EQUALS(stats.number, 12000);
    IS(rheap_close(&heap), DONE);
}

/* A list fills the space: what insists collects, and is refused once all is reached. */
static void full(void) {
    rheap_root_id list = rheap_slot(1, 0);
    rheap_init cell[2];
    uint64_t before;
    int n;
    IS(rheap_open_sized(&heap, 200, 4, 32, 2, 2), DONE);
    cell[0] = rheap_of_int(7);
    cell[1] = rheap_of_root(list);
    for (n = 0; rheap_insist_make(&heap, 1, list, 2, cell, 2) == RHEAP_DONE; n++) {
    }
    EQUALS(n, 50);
    before = used();
    EQUALS(before, 200);
    IS(rheap_make(&heap, 1, list, 2, cell, 2), SPACE_FULL);
    IS(rheap_insist_make_raw(&heap, 1, list, 2, cell, 1), SPACE_FULL);
    EQUALS(used(), before);
    EQUALS(field_of(list, 0).number, 7);
    IS(rheap_close(&heap), DONE);
}

int main(void) {
    unsigned call;
    rheap_init value = rheap_of_int(1);
    for (call = 0; call < 4; call++) {
        IS(calls[call](&heap, 0, rheap_slot(0, 0), 1, &value, 1), NOT_OPEN);
        value.kind = RHEAP_RAW + 1;
        IS(calls[call](&heap, 0, rheap_slot(0, 0), 1, &value, 1), NOT_OPEN);
        value = rheap_of_int(1);
        IS(rheap_open_sized(&heap, 200000, 4097, 32, 3, 3), DONE);
        each_kind(call);
        each_refusal(call);
        each_length(call);
        IS(rheap_close(&heap), DONE);
    }
    EQUALS(strcmp(rheap_name(RHEAP_BAD_KIND), "BAD_KIND"), 0);
    lists(0, 1000);
    lists(2, 1000);
    lists(2, 500);
    full();
    return wrong;
}
