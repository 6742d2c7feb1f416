/* Twins: on one heap a call that does several things or names no owner, on another the calls that it
   stands for. Both are to answer the same and to stay the same, in cycles too. Then each status of
   these calls that chance doesn't find. Prints nothing where all is as it should be. */
#include "rheap.h"
#include <stdio.h>
#include <string.h>

#define OWNERS 3
#define SLOTS 8
#define LONGEST 6

static int wrong = 0;

static void expect(const char *call, int line, uint8_t got, uint8_t due) {
    if (got != due) {
        printf("line %d: %s: %s, not %s\n", line, call, rheap_name(got), rheap_name(due));
        wrong = 1;
    }
}

static void expect_number(const char *what, int line, int64_t got, int64_t due) {
    if (got != due) {
        printf("line %d: %s: %ld, not %ld\n", line, what, (long)got, (long)due);
        wrong = 1;
    }
}

#define IS(call, status) expect(#call, __LINE__, call, RHEAP_##status)
#define EQUALS(what, number) expect_number(#what, __LINE__, (int64_t)(what), (int64_t)(number))

/* A number below `below`, by chance. */
static uint64_t chance = 88172645463325252u;

static uint32_t drawn(uint32_t below) {
    chance ^= chance << 13;
    chance ^= chance >> 7;
    chance ^= chance << 17;
    return (uint32_t)(chance >> 33) % below;
}

/* A slot, which now and then isn't there. */
static uint32_t slot(void) { return drawn(SLOTS + (drawn(20) == 0)); }

/* A root, mostly of owner 1 or 0. */
static rheap_root_id root(void) { return rheap_slot(drawn(30) == 0 ? 2 : drawn(2), slot()); }

/* A field, which most objects have. */
static uint32_t field(void) { return drawn(drawn(4) == 0 ? 9 : 3); }

/* A number, which now and then is out of range. */
static int64_t number(void) { return drawn(40) == 0 ? RHEAP_MAX_INT + 1 : (int64_t)drawn(1000) - 500; }

/* What two calls wrote. */
typedef struct told {
    rheap_value value;
    size_t count;
} told;

static told junk(void) {
    told of;
    memset(&of, 0x5a, sizeof of);
    return of;
}

/* Says where the twins aren't the same any more: the answers of the calls, what they wrote, and the
   numbers of the heaps. */
static void compare(const char *call, rheap *one, rheap *other, uint8_t got, uint8_t due, told is,
                    told was) {
    rheap_stats left;
    rheap_stats right;
    memset(&left, 0, sizeof left);
    memset(&right, 0, sizeof right);
    expect(call, 0, got, due);
    expect_number(call, 1, (int64_t)is.value.kind, (int64_t)was.value.kind);
    expect_number(call, 2, (int64_t)is.value.fields, (int64_t)was.value.fields);
    expect_number(call, 3, is.value.number, was.value.number);
    expect_number(call, 4, (int64_t)is.count, (int64_t)was.count);
    IS(rheap_stat(one, &left), DONE);
    IS(rheap_stat(other, &right), DONE);
    if (memcmp(&left, &right, sizeof left) != 0) {
        printf("%s: the heaps differ\n", call);
        wrong = 1;
    }
}

/* One call on a slot of owner 0, by its number and by its owner. */
static void of_shared(rheap *one, rheap *other) {
    uint32_t a = slot();
    uint32_t b = slot();
    uint32_t f = field();
    int64_t n = number();
    rheap_root_id of_a = rheap_slot(0, a);
    rheap_root_id of_b = rheap_slot(0, b);
    told is = junk();
    told was = junk();
#define SHARED(name, by_number, by_owner)                                                          \
    do {                                                                                           \
        uint8_t got = by_number;                                                                   \
        uint8_t due = by_owner;                                                                    \
        compare(name, one, other, got, due, is, was);                                              \
    } while (0)
    switch (drawn(16)) {
    case 0:
        SHARED("alloc", rheap_shared_alloc(one, a, f), rheap_alloc(other, 0, of_a, f));
        break;
    case 1:
        SHARED("alloc_raw", rheap_shared_alloc_raw(one, a, f), rheap_alloc_raw(other, 0, of_a, f));
        break;
    case 2:
        SHARED("load", rheap_shared_load(one, a, b, f, &is.value),
               rheap_load(other, 0, of_a, of_b, f, &was.value));
        break;
    case 3:
        SHARED("load_untold", rheap_shared_load_untold(one, a, b, f),
               rheap_load_untold(other, 0, of_a, of_b, f));
        break;
    case 4:
        SHARED("peek", rheap_shared_peek(one, a, f, &is.value),
               rheap_peek(other, 0, of_a, f, &was.value));
        break;
    case 5:
        SHARED("store_nil", rheap_shared_store_nil(one, a, f), rheap_store_nil(other, 0, of_a, f));
        break;
    case 6:
        SHARED("store_int", rheap_shared_store_int(one, a, f, n),
               rheap_store_int(other, 0, of_a, f, n));
        break;
    case 7:
    case 8:
        SHARED("store_root", rheap_shared_store_root(one, a, f, b),
               rheap_store_root(other, 0, of_a, f, of_b));
        break;
    case 9:
        SHARED("copy", rheap_shared_copy(one, a, b), rheap_copy(other, 0, of_a, of_b));
        break;
    case 10:
        SHARED("drop", rheap_shared_drop(one, a), rheap_drop(other, 0, of_a));
        break;
    case 11:
        SHARED("insist_alloc", rheap_shared_insist_alloc(one, a, f),
               rheap_insist_alloc(other, 0, of_a, f));
        break;
    case 12:
        SHARED("insist_alloc_raw", rheap_shared_insist_alloc_raw(one, a, f),
               rheap_insist_alloc_raw(other, 0, of_a, f));
        break;
    case 13:
        SHARED("insist_store_nil", rheap_shared_insist_store_nil(one, a, f),
               rheap_insist_store_nil(other, 0, of_a, f));
        break;
    case 14:
        SHARED("insist_store_int", rheap_shared_insist_store_int(one, a, f, n),
               rheap_insist_store_int(other, 0, of_a, f, n));
        break;
    default:
        SHARED("insist_store_root", rheap_shared_insist_store_root(one, a, f, b),
               rheap_insist_store_root(other, 0, of_a, f, of_b));
    }
#undef SHARED
}

/* The store of one value, by the call for its kind. */
static uint8_t store_one(rheap *heap, int insists, rheap_root_id object, uint32_t at, rheap_init of) {
    if (of.kind == RHEAP_NIL) {
        return insists ? rheap_insist_store_nil(heap, 1, object, at) : rheap_store_nil(heap, 1, object, at);
    }
    if (of.kind == RHEAP_NUMBER) {
        return insists ? rheap_insist_store_int(heap, 1, object, at, of.number)
                       : rheap_store_int(heap, 1, object, at, of.number);
    }
    return insists ? rheap_insist_store_root(heap, 1, object, at, of.root)
                   : rheap_store_root(heap, 1, object, at, of.root);
}

/* Values in a row, by one call and by a store for each. */
static void of_values(rheap *one, rheap *other) {
    rheap_init values[LONGEST];
    size_t length = drawn(LONGEST + 1);
    rheap_root_id object = root();
    uint32_t from = field();
    int insists = drawn(2) == 0;
    told is = junk();
    told was = junk();
    uint8_t got;
    uint8_t due = RHEAP_DONE;
    size_t k;
    for (k = 0; k < LONGEST; k++) {
        values[k].kind = drawn(4);
        values[k].root = root();
        values[k].number = number();
    }
    got = insists ? rheap_insist_store_row(one, 1, object, from, values, length, &is.count)
                  : rheap_store_row(one, 1, object, from, values, length, &is.count);
    for (was.count = 0; was.count < length; was.count++) {
        due = store_one(other, insists, object, from + (uint32_t)was.count, values[was.count]);
        if (due != RHEAP_DONE) {
            break;
        }
    }
    compare(insists ? "insist_store_row" : "store_row", one, other, got, due, is, was);
}

/* Roots in a row whose values aren't told, and with their values. */
static void of_roots(rheap *one, rheap *other) {
    rheap_value values[LONGEST];
    size_t length = drawn(LONGEST + 1);
    rheap_root_id first = root();
    rheap_root_id src = root();
    uint32_t from = field();
    told is = junk();
    told was = junk();
    uint8_t got = rheap_load_roots_untold(one, 1, first, src, from, length, &is.count);
    uint8_t due = rheap_load_roots(other, 1, first, src, from, values, length, &was.count);
    compare("load_roots_untold", one, other, got, due, is, was);
}

/* Something by the same call on both, so that cycles run. */
static void of_both(rheap *one, rheap *other) {
    rheap_root_id dst = root();
    rheap_root_id src = root();
    uint32_t fields = drawn(7);
    told none = junk();
    uint8_t got;
    uint8_t due;
    if (drawn(3) != 0) {
        got = rheap_insist_alloc(one, 1, dst, fields);
        due = rheap_insist_alloc(other, 1, dst, fields);
    } else {
        got = rheap_copy(one, 1, dst, src);
        due = rheap_copy(other, 1, dst, src);
    }
    compare("both", one, other, got, due, none, none);
}

/* What the roots hold, and what all fields of their objects hold, is the same. */
static void compare_roots(rheap *one, rheap *other) {
    uint32_t owner;
    uint32_t at;
    uint32_t f;
    for (owner = 0; owner < OWNERS; owner++) {
        for (at = 0; at < SLOTS; at++) {
            told is = junk();
            told was = junk();
            uint8_t got = rheap_root(one, rheap_slot(owner, at), &is.value);
            uint8_t due = rheap_root(other, rheap_slot(owner, at), &was.value);
            uint32_t fields = is.value.fields;
            compare("root", one, other, got, due, is, was);
            for (f = 0; f < fields; f++) {
                is = junk();
                was = junk();
                got = rheap_field(one, rheap_slot(owner, at), f, &is.value);
                due = rheap_field(other, rheap_slot(owner, at), f, &was.value);
                compare("field", one, other, got, due, is, was);
            }
        }
    }
}

static void run_twins(uint32_t words) {
    rheap one = RHEAP_INIT;
    rheap other = RHEAP_INIT;
    rheap_stats stats;
    uint32_t turn;
    /* More lives at times than the pace expects, so that the space and the log get full. */
    IS(rheap_open(&one, words, 10, 9, 4, OWNERS, SLOTS), DONE);
    IS(rheap_open(&other, words, 10, 9, 4, OWNERS, SLOTS), DONE);
    for (turn = 0; turn < 20000 && !wrong; turn++) {
        switch (drawn(5)) {
        case 0: of_values(&one, &other); break;
        case 1: of_roots(&one, &other); break;
        case 2: of_both(&one, &other); break;
        default: of_shared(&one, &other);
        }
        if (turn % 100 == 0) {
            compare_roots(&one, &other);
        }
    }
    IS(rheap_stat(&one, &stats), DONE);
    if (stats.flips == 0) {
        printf("no cycle ended in %u words\n", words);
        wrong = 1;
    }
    IS(rheap_close(&one), DONE);
    IS(rheap_close(&other), DONE);
}

static void without_a_heap(rheap *heap) {
    rheap_root_id of = rheap_slot(0, 0);
    rheap_init values[1];
    rheap_value value;
    size_t count = 7;
    memset(values, 0, sizeof values);
    IS(rheap_store_row(heap, 0, of, 0, values, 1, &count), NOT_OPEN);
    EQUALS(count, 0);
    count = 7;
    IS(rheap_insist_store_row(heap, 0, of, 0, values, 1, &count), NOT_OPEN);
    EQUALS(count, 0);
    count = 7;
    IS(rheap_load_roots_untold(heap, 0, of, of, 0, 1, &count), NOT_OPEN);
    EQUALS(count, 0);
    IS(rheap_shared_alloc(heap, 0, 1), NOT_OPEN);
    IS(rheap_shared_alloc_raw(heap, 0, 1), NOT_OPEN);
    memset(&value, 0x5a, sizeof value);
    IS(rheap_shared_load(heap, 0, 0, 0, &value), NOT_OPEN);
    EQUALS(value.kind, RHEAP_NIL);
    EQUALS(value.number, 0);
    IS(rheap_shared_load_untold(heap, 0, 0, 0), NOT_OPEN);
    memset(&value, 0x5a, sizeof value);
    IS(rheap_shared_peek(heap, 0, 0, &value), NOT_OPEN);
    EQUALS(value.kind, RHEAP_NIL);
    EQUALS(value.number, 0);
    IS(rheap_shared_store_nil(heap, 0, 0), NOT_OPEN);
    IS(rheap_shared_store_int(heap, 0, 0, 7), NOT_OPEN);
    IS(rheap_shared_store_root(heap, 0, 0, 0), NOT_OPEN);
    IS(rheap_shared_copy(heap, 0, 0), NOT_OPEN);
    IS(rheap_shared_drop(heap, 0), NOT_OPEN);
    IS(rheap_shared_insist_alloc(heap, 0, 1), NOT_OPEN);
    IS(rheap_shared_insist_alloc_raw(heap, 0, 1), NOT_OPEN);
    IS(rheap_shared_insist_store_nil(heap, 0, 0), NOT_OPEN);
    IS(rheap_shared_insist_store_int(heap, 0, 0, 7), NOT_OPEN);
    IS(rheap_shared_insist_store_root(heap, 0, 0, 0), NOT_OPEN);
}

/* What a frame is filled with: a root, a number, nil, and a root that holds a number. */
static void frame(rheap *heap) {
    rheap_root_id object = rheap_slot(1, 0);
    rheap_root_id raw = rheap_slot(1, 2);
    rheap_init values[4];
    rheap_value value;
    size_t count = 7;
    memset(values, 0x5a, sizeof values);
    values[0].kind = RHEAP_OBJECT;
    values[0].root = rheap_slot(1, 1);
    values[1].kind = RHEAP_NUMBER;
    values[1].number = -5;
    values[2].kind = RHEAP_NIL;
    values[3].kind = RHEAP_RAW;
    values[3].root = rheap_slot(0, 3);
    IS(rheap_alloc(heap, 1, object, 4), DONE);
    IS(rheap_alloc(heap, 1, rheap_slot(1, 1), 2), DONE);
    IS(rheap_store_int(heap, 1, object, 0, 44), DONE);
    IS(rheap_load(heap, 1, rheap_slot(0, 3), object, 0, &value), DONE);
    IS(rheap_store_row(heap, 1, object, 0, values, 4, &count), DONE);
    EQUALS(count, 4);
    IS(rheap_peek(heap, 1, object, 0, &value), DONE);
    EQUALS(value.fields, 2);
    IS(rheap_peek(heap, 1, object, 1, &value), DONE);
    EQUALS(value.number, -5);
    IS(rheap_peek(heap, 1, object, 2, &value), DONE);
    EQUALS(value.kind, RHEAP_NIL);
    IS(rheap_peek(heap, 1, object, 3, &value), DONE);
    EQUALS(value.number, 44);
    IS(rheap_store_row(heap, 1, object, 2, values, 4, &count), NO_FIELD);
    EQUALS(count, 2);
    IS(rheap_peek(heap, 1, object, 3, &value), DONE);
    EQUALS(value.number, -5);
    IS(rheap_store_row(heap, 1, object, UINT32_MAX, values, 2, &count), NO_FIELD);
    EQUALS(count, 0);
    IS(rheap_store_row(heap, 1, object, 9, values, 0, &count), DONE);
    EQUALS(count, 0);
    IS(rheap_alloc_raw(heap, 1, raw, 3), DONE);
    IS(rheap_store_row(heap, 1, raw, 0, values + 1, 2, &count), DONE);
    IS(rheap_insist_store_row(heap, 1, raw, 0, values, 2, &count), RAW_FIELD);
    EQUALS(count, 0);
    /* A kind that there isn't: none is stored, not even those before it. */
    values[2].kind = 4;
    IS(rheap_store_row(heap, 1, object, 0, values + 1, 2, &count), BAD_KIND);
    EQUALS(count, 0);
    IS(rheap_insist_store_row(heap, 1, object, 0, values + 1, 2, &count), BAD_KIND);
    EQUALS(count, 0);
    IS(rheap_peek(heap, 1, object, 0, &value), DONE);
    EQUALS(value.fields, 2);
    values[1].number = RHEAP_MIN_INT - 1;
    IS(rheap_insist_store_row(heap, 1, object, 0, values, 2, &count), INT_RANGE);
    EQUALS(count, 1);
}

/* In a cycle a row meets a full log in its middle; one that insists doesn't. */
static void full_log(void) {
    rheap heap = RHEAP_INIT;
    rheap_root_id object = rheap_slot(0, 0);
    rheap_init values[250];
    size_t count = 0;
    uint32_t turn;
    int limited = 0;
    memset(values, 0, sizeof values);
    IS(rheap_open(&heap, 1000, 10, 29, 4, 1, 256), DONE);
    IS(rheap_alloc(&heap, 0, object, 250), DONE);
    for (turn = 0; turn < 2000 && !limited; turn++) {
        uint8_t status = rheap_store_row(&heap, 0, object, 0, values, 250, &count);
        limited = status == RHEAP_LOG_FULL;
        if (limited) {
            EQUALS(count < 250, 1);
            IS(rheap_insist_store_row(&heap, 0, object, 0, values, 250, &count), DONE);
            EQUALS(count, 250);
        } else {
            expect("rheap_store_row", __LINE__, status, RHEAP_DONE);
            (void)rheap_insist_alloc(&heap, 0, rheap_slot(0, 1), 20);
        }
    }
    if (!limited) {
        printf("the log was never full\n");
        wrong = 1;
    }
    IS(rheap_close(&heap), DONE);
}

int main(void) {
    rheap heap = RHEAP_INIT;
    without_a_heap(&heap);
    IS(rheap_open_sized(&heap, 4096, 20, 32, 3, 8), DONE);
    frame(&heap);
    IS(rheap_close(&heap), DONE);
    without_a_heap(&heap);
    full_log();
    run_twins(200);
    run_twins(400);
    run_twins(2000);
    return wrong;
}
