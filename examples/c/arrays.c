/* Arrays of rheap_array.h beside rows of C: what they hold as they grow, all that is refused, and
   that nothing is lost then. Prints nothing where all is as it should be. */
#include "rheap_array.h"
#include <stdio.h>
#include <stdlib.h>

static int wrong = 0;

static void expect(const char *call, int line, uint8_t got, uint8_t due) {
    if (got != due) {
        printf("line %d: %s: %s, not %s\n", line, call, rheap_name(got), rheap_name(due));
        wrong = 1;
    }
}

static void expect_number(const char *what, int line, int64_t got, int64_t due) {
    if (got != due) {
        printf("line %d: %s: %ld, not %ld\n", line, what, (long)got, (long)due);
        wrong = 1;
    }
}

#define IS(call, status) expect(#call, __LINE__, call, RHEAP_##status)
#define EQUALS(what, number) expect_number(#what, __LINE__, (int64_t)(what), (int64_t)(number))
#define TELLS(value, is_kind, is_number)                                                           \
    do {                                                                                           \
        EQUALS((value).kind, is_kind);                                                             \
        EQUALS((value).number, is_number);                                                         \
    } while (0)

static rheap heap = RHEAP_INIT;
/* The slots that the calls use, and roots beside them. */
static rheap_scope scope = {&heap, 1, 8};
#define ARRAY rheap_slot(1, 0)
#define ITEM rheap_slot(1, 1)
#define OTHER rheap_slot(1, 2)

/* No slot of the scope is left in use. */
static void clean(int line) {
    uint32_t slot;
    expect_number("the top of the scope", line, scope.top, 8);
    for (slot = 8; slot < 12; slot++) {
        rheap_value value;
        expect("rheap_root", line, rheap_root(&heap, rheap_slot(1, slot), &value), RHEAP_DONE);
        expect_number("a slot of the scope", line, value.kind, RHEAP_NIL);
    }
}

/* A random number below a limit, the same in each run. */
static uint32_t below(uint32_t limit) {
    static uint32_t state = 1;
    state = state * 1664525u + 1013904223u;
    return (state >> 8) % limit;
}

/* Elements that are pushed and set at random, beside a row of C, with collections between them. */
static void beside_a_row(uint32_t chunk, int is_raw) {
    static int64_t row[3000];
    uint32_t length = 0;
    uint32_t turn;
    uint32_t told;
    rheap_value value;
    rheap_value other;
    IS(rheap_array_make_as(&scope, ARRAY, 0, chunk, is_raw), DONE);
    IS(rheap_copy(&heap, 1, OTHER, ARRAY), DONE);
    for (turn = 0; turn < 4000; turn++) {
        uint32_t at = length == 0 ? 0 : below(length);
        if (length < 3000 && below(3) != 0) {
            row[length] = (int64_t)below(1000) - 500;
            IS(rheap_array_push_int(&scope, ARRAY, row[length]), DONE);
            length++;
        } else if (length > 0) {
            row[at] = turn;
            IS(rheap_array_set_int(&scope, ARRAY, at, turn), DONE);
        }
        if (turn % 1000 == 0) {
            IS(rheap_collect(&heap), DONE);
        }
    }
    /* The array is the same object as before. */
    for (turn = 0; turn < length; turn++) {
        IS(rheap_array_peek(&scope, OTHER, turn, &value), DONE);
        TELLS(value, RHEAP_NUMBER, row[turn]);
        IS(rheap_array_get(&scope, ITEM, ARRAY, turn, &value), DONE);
        IS(rheap_root(&heap, ITEM, &other), DONE);
        TELLS(other, RHEAP_NUMBER, row[turn]);
    }
    IS(rheap_array_length(&scope, ARRAY, &told), DONE);
    EQUALS(told, length);
    IS(rheap_array_peek(&scope, ARRAY, length, &value), NO_FIELD);
    TELLS(value, RHEAP_NIL, 0);
    /* What it grew by is raw where it was made raw: the first chunk, and those behind it. */
    told = is_raw ? RHEAP_RAW_FIELD : RHEAP_DONE;
    for (turn = 0; turn < length; turn++) {
        EQUALS(rheap_array_set_root(&scope, ARRAY, turn, ARRAY), told);
    }
    EQUALS(rheap_array_push_root(&scope, ARRAY, ARRAY), told);
    IS(rheap_array_length(&scope, ARRAY, &told), DONE);
    EQUALS(told, is_raw ? length : length + 1);
    clean(__LINE__);
}

/* References: each element refers to a list of its own number, and stays as the array grows. */
static void references(void) {
    rheap_value value;
    uint32_t k;
    IS(rheap_array_make(&scope, ARRAY, 10, 6), DONE);
    for (k = 0; k < 200; k++) {
        IS(rheap_insist_alloc(&heap, 1, ITEM, 1), DONE);
        IS(rheap_insist_store_int(&heap, 1, ITEM, 0, k), DONE);
        if (k < 10) {
            IS(rheap_array_peek(&scope, ARRAY, k, &value), DONE);
            TELLS(value, RHEAP_NIL, 0);
            IS(rheap_array_set_root(&scope, ARRAY, k, ITEM), DONE);
        } else {
            IS(rheap_array_push_root(&scope, ARRAY, ITEM), DONE);
        }
    }
    IS(rheap_array_grow(&scope, ARRAY, 301), DONE);
    IS(rheap_array_grow(&scope, ARRAY, 5), DONE);
    IS(rheap_collect(&heap), DONE);
    for (k = 0; k < 200; k++) {
        IS(rheap_array_get(&scope, ITEM, ARRAY, k, &value), DONE);
        EQUALS(value.kind, RHEAP_OBJECT);
        EQUALS(value.fields, 1);
        IS(rheap_peek(&heap, 1, ITEM, 0, &value), DONE);
        TELLS(value, RHEAP_NUMBER, k);
    }
    for (k = 200; k < 301; k++) {
        IS(rheap_array_peek(&scope, ARRAY, k, &value), DONE);
        TELLS(value, RHEAP_NIL, 0);
    }
    IS(rheap_array_length(&scope, ARRAY, &k), DONE);
    EQUALS(k, 301);
    IS(rheap_array_set_nil(&scope, ARRAY, 3), DONE);
    IS(rheap_array_get(&scope, ARRAY, ARRAY, 4, &value), DONE);
    EQUALS(value.fields, 1);
    clean(__LINE__);
}

/* Numbers in a row, over the ends of chunks. */
static void in_a_row(void) {
    int64_t numbers[100];
    int64_t read[100];
    uint32_t from;
    uint32_t count;
    uint32_t k;
    IS(rheap_array_make_raw(&scope, ARRAY, 130, 16), DONE);
    for (from = 0; from <= 30; from++) {
        for (k = 0; k < 100; k++) {
            numbers[k] = from * 1000 + k;
        }
        IS(rheap_array_store_ints(&scope, ARRAY, from, numbers, 100), DONE);
        memset(read, 0x5a, sizeof read);
        IS(rheap_array_load_ints(&scope, ARRAY, from, read, 100, &count), DONE);
        EQUALS(count, 100);
        EQUALS(memcmp(numbers, read, sizeof read), 0);
    }
    IS(rheap_array_load_ints(&scope, ARRAY, 31, read, 100, &count), NO_FIELD);
    EQUALS(count, 0);
    IS(rheap_array_store_ints(&scope, ARRAY, 31, numbers, 100), NO_FIELD);
    IS(rheap_array_store_ints(&scope, ARRAY, 0, numbers, SIZE_MAX), NO_FIELD);
    numbers[99] = RHEAP_MAX_INT + 1;
    numbers[0] = -1;
    IS(rheap_array_store_ints(&scope, ARRAY, 0, numbers, 100), INT_RANGE);
    IS(rheap_array_load_ints(&scope, ARRAY, 0, read, 1, &count), DONE);
    EQUALS(read[0], 0);
    IS(rheap_array_store_ints(&scope, ARRAY, 500, numbers, 0), DONE);
    IS(rheap_array_load_ints(&scope, ARRAY, 500, read, 0, &count), DONE);
    IS(rheap_array_set_nil(&scope, ARRAY, 40), DONE);
    read[41] = 77;
    IS(rheap_array_load_ints(&scope, ARRAY, 0, read, 100, &count), DONE);
    EQUALS(count, 40);
    EQUALS(read[41], 77);
    IS(rheap_array_set_root(&scope, ARRAY, 0, ARRAY), RAW_FIELD);
    IS(rheap_array_push_root(&scope, ARRAY, ARRAY), RAW_FIELD);
    IS(rheap_array_length(&scope, ARRAY, &count), DONE);
    EQUALS(count, 130);
    clean(__LINE__);
}

/* Bytes, each by itself and in a row from anywhere. */
static void bytes(void) {
    static uint8_t row[700];
    static uint8_t read[700];
    uint32_t turn;
    uint32_t k;
    uint8_t byte = 1;
    IS(rheap_array_make_raw(&scope, ARRAY, rheap_array_of_bytes(700), 10), DONE);
    EQUALS(rheap_array_of_bytes(0), 0);
    EQUALS(rheap_array_of_bytes(8), 2);
    for (turn = 0; turn < 300; turn++) {
        uint32_t from = below(700);
        uint32_t length = below(700 - from + 1);
        for (k = 0; k < length; k++) {
            row[from + k] = (uint8_t)below(256);
        }
        if (length == 1) {
            IS(rheap_array_set_byte(&scope, ARRAY, from, row[from]), DONE);
        } else {
            IS(rheap_array_store_bytes(&scope, ARRAY, from, row + from, length), DONE);
        }
        from = below(700);
        length = below(700 - from + 1);
        memset(read, 0x5a, sizeof read);
        IS(rheap_array_load_bytes(&scope, ARRAY, from, read, length), DONE);
        EQUALS(memcmp(read, row + from, length), 0);
        EQUALS(length == 700 || read[length] == 0x5a, 1);
        k = below(700);
        IS(rheap_array_get_byte(&scope, ARRAY, k, &byte), DONE);
        EQUALS(byte, row[k]);
    }
    IS(rheap_array_get_byte(&scope, ARRAY, 700, &byte), NO_FIELD);
    EQUALS(byte, 0);
    IS(rheap_array_set_byte(&scope, ARRAY, UINT32_MAX, 1), NO_FIELD);
    IS(rheap_array_store_bytes(&scope, ARRAY, 1, row, 700), NO_FIELD);
    IS(rheap_array_store_bytes(&scope, ARRAY, 1, row, SIZE_MAX), NO_FIELD);
    IS(rheap_array_load_bytes(&scope, ARRAY, 1, read, 700), NO_FIELD);
    IS(rheap_array_store_bytes(&scope, ARRAY, 9999, row, 0), DONE);
    IS(rheap_array_load_bytes(&scope, ARRAY, 9999, read, 0), DONE);
    IS(rheap_array_load_bytes(&scope, ARRAY, 0, read, 700), DONE);
    EQUALS(memcmp(read, row, 700), 0);
    /* Bytes that were never stored are 0, before others and behind them. */
    IS(rheap_array_make(&scope, ARRAY, rheap_array_of_bytes(700), 10), DONE);
    IS(rheap_array_store_bytes(&scope, ARRAY, 320, row, 40), DONE);
    IS(rheap_array_set_root(&scope, ARRAY, 90, ARRAY), DONE);
    for (k = 0; k < 20; k++) {
        memset(read, 0x5a, sizeof read);
        IS(rheap_array_load_bytes(&scope, ARRAY, k, read, 699 - 2 * k), DONE);
        EQUALS(memcmp(read + 320 - k, row, 40), 0);
        for (turn = 0; turn < 699 - 2 * k; turn++) {
            EQUALS(turn + k < 320 || turn + k >= 360 ? read[turn] : 0, 0);
        }
        EQUALS(read[699 - 2 * k], 0x5a);
    }
    clean(__LINE__);
}

/* Integers of 64 bits and doubles, in two elements each; a chunk's end never parts the two. */
static void bits(void) {
    static const int64_t whole[] = {0, 1, -1, INT64_MAX, INT64_MIN, INT64_C(0x123456789abcdef0)};
    static const double broken[] = {0.0, -0.0, 1.5, -1e300, 5e-324};
    double number = 1;
    double back;
    int64_t read = 1;
    uint32_t k;
    IS(rheap_array_make_raw(&scope, ARRAY, 24, 6), DONE);
    for (k = 0; k < 12; k++) {
        IS(rheap_array_get_int64(&scope, ARRAY, k, &read), DONE);
        EQUALS(read, 0);
    }
    for (k = 0; k < 6; k++) {
        IS(rheap_array_set_int64(&scope, ARRAY, k, whole[k]), DONE);
    }
    for (k = 0; k < 5; k++) {
        IS(rheap_array_set_double(&scope, ARRAY, 6 + k, broken[k]), DONE);
    }
    for (k = 0; k < 6; k++) {
        IS(rheap_array_get_int64(&scope, ARRAY, k, &read), DONE);
        EQUALS(read, whole[k]);
    }
    for (k = 0; k < 5; k++) {
        IS(rheap_array_get_double(&scope, ARRAY, 6 + k, &back), DONE);
        EQUALS(memcmp(&back, &broken[k], sizeof back), 0);
    }
    number = 0.0 / (number - 1);
    IS(rheap_array_set_double(&scope, ARRAY, 0, number), DONE);
    IS(rheap_array_get_double(&scope, ARRAY, 0, &back), DONE);
    EQUALS(memcmp(&back, &number, sizeof back), 0);
    /* An upper half alone. */
    IS(rheap_array_set_nil(&scope, ARRAY, 0), DONE);
    IS(rheap_array_set_int(&scope, ARRAY, 1, 3), DONE);
    IS(rheap_array_get_int64(&scope, ARRAY, 0, &read), DONE);
    EQUALS(read, INT64_C(3) << 32);
    IS(rheap_array_get_int64(&scope, ARRAY, 12, &read), NO_FIELD);
    EQUALS(read, 0);
    IS(rheap_array_get_double(&scope, ARRAY, UINT32_MAX, &back), NO_FIELD);
    IS(rheap_array_set_double(&scope, ARRAY, 12, 1.0), NO_FIELD);
    IS(rheap_array_set_int64(&scope, ARRAY, UINT32_MAX, 1), NO_FIELD);
    clean(__LINE__);
}

/* Each call on what is no array, of an owner who may not, or with too few slots. */
static void each_call(rheap_scope *with, rheap_root_id array, int line, uint8_t due,
                      uint8_t due_of_length) {
    rheap_value value;
    int64_t numbers[2] = {1, 2};
    double number = 1;
    uint32_t count = 7;
    uint8_t byte = 7;
    uint32_t mark = with->top;
    expect("length", line, rheap_array_length(with, array, &count), due_of_length);
    expect("reserve", line, rheap_array_reserve(with, array, 9), due);
    expect("grow", line, rheap_array_grow(with, array, 9), due);
    expect("get", line, rheap_array_get(with, ITEM, array, 0, &value), due);
    expect_number("value", line, value.kind, RHEAP_NIL);
    expect("peek", line, rheap_array_peek(with, array, 0, &value), due);
    expect_number("value", line, value.kind, RHEAP_NIL);
    expect("set_nil", line, rheap_array_set_nil(with, array, 0), due);
    expect("set_int", line, rheap_array_set_int(with, array, 0, 1), due);
    expect("set_root", line, rheap_array_set_root(with, array, 0, ITEM), due);
    expect("push_int", line, rheap_array_push_int(with, array, 1), due);
    expect("push_root", line, rheap_array_push_root(with, array, ITEM), due);
    expect("store_ints", line, rheap_array_store_ints(with, array, 0, numbers, 2), due);
    expect("load_ints", line, rheap_array_load_ints(with, array, 0, numbers, 2, &count), due);
    expect_number("count", line, count, 0);
    expect("get_byte", line, rheap_array_get_byte(with, array, 0, &byte), due);
    expect("set_byte", line, rheap_array_set_byte(with, array, 0, 1), due);
    expect("store_bytes", line, rheap_array_store_bytes(with, array, 0, numbers, 9), due);
    expect("load_bytes", line, rheap_array_load_bytes(with, array, 0, &numbers, 9), due);
    expect("get_int64", line, rheap_array_get_int64(with, array, 0, numbers), due);
    expect("set_int64", line, rheap_array_set_int64(with, array, 0, 1), due);
    expect("get_double", line, rheap_array_get_double(with, array, 0, &number), due);
    expect("set_double", line, rheap_array_set_double(with, array, 0, 1), due);
    expect_number("top", line, with->top, mark);
}

#define EACH_CALL(with, array, status, of_length)                                                  \
    each_call(with, array, __LINE__, RHEAP_##status, RHEAP_##of_length)

/* A head with these numbers, whose directory is `directory`. */
static void head(int64_t length, int64_t chunk, rheap_root_id directory) {
    IS(rheap_insist_alloc(&heap, 1, ARRAY, 4), DONE);
    IS(rheap_insist_store_int(&heap, 1, ARRAY, 1, length), DONE);
    IS(rheap_insist_store_int(&heap, 1, ARRAY, 2, chunk), DONE);
    IS(rheap_insist_store_root(&heap, 1, ARRAY, 3, directory), DONE);
}

static void mistakes(void) {
    static const int64_t lengths[] = {-1, (int64_t)UINT32_MAX + 1, 4, 4, 4, 4};
    static const int64_t chunks[] = {6, 6, 0, 1, 4096, -2};
    rheap_scope theirs = {&heap, 2, 8};
    rheap_scope high = {&heap, 1, 12};
    rheap_value value;
    uint32_t k;
    IS(rheap_drop(&heap, 1, ARRAY), DONE);
    EACH_CALL(&scope, ARRAY, NOT_OBJECT, NOT_OBJECT);
    for (k = 0; k < 4; k++) {
        IS(rheap_insist_alloc(&heap, 1, ARRAY, k), DONE);
        EACH_CALL(&scope, ARRAY, NOT_OBJECT, NOT_OBJECT);
    }
    IS(rheap_insist_alloc(&heap, 1, ARRAY, 4), DONE);
    EACH_CALL(&scope, ARRAY, NOT_OBJECT, NOT_OBJECT);
    IS(rheap_insist_alloc(&heap, 1, OTHER, 1), DONE);
    for (k = 0; k < 6; k++) {
        head(lengths[k], chunks[k], OTHER);
        EACH_CALL(&scope, ARRAY, NOT_OBJECT, NOT_OBJECT);
    }
    /* Objects that look like one: the heap refuses what isn't there. */
    IS(rheap_drop(&heap, 1, OTHER), DONE);
    head(8, 6, OTHER);
    EACH_CALL(&scope, ARRAY, NOT_OBJECT, DONE);
    IS(rheap_insist_alloc(&heap, 1, OTHER, 1), DONE);
    head(UINT32_MAX, 4094, OTHER);
    IS(rheap_array_peek(&scope, ARRAY, UINT32_MAX - 1, &value), NO_FIELD);
    IS(rheap_array_peek(&scope, ARRAY, 1, &value), NOT_OBJECT);
    IS(rheap_array_push_int(&scope, ARRAY, 1), NO_FIELD);
    IS(rheap_array_grow(&scope, ARRAY, UINT32_MAX), DONE);
    IS(rheap_array_reserve(&scope, ARRAY, UINT32_MAX), FIELDS_RANGE);
    clean(__LINE__);

    /* Sizes, owners and slots. */
    IS(rheap_drop(&heap, 1, ARRAY), DONE);
    IS(rheap_array_make(&scope, ARRAY, 4, 0), FIELDS_RANGE);
    IS(rheap_array_make(&scope, ARRAY, 4, 3), FIELDS_RANGE);
    IS(rheap_array_make(&scope, ARRAY, 4, 4096), FIELDS_RANGE);
    IS(rheap_array_make(&scope, ARRAY, 4095 * 4 + 1, 4), FIELDS_RANGE);
    IS(rheap_array_make_raw(&scope, ARRAY, UINT32_MAX, 4094), FIELDS_RANGE);
    IS(rheap_array_make(&scope, rheap_slot(2, 0), 4, 4), NOT_YOURS);
    IS(rheap_array_make(&scope, rheap_slot(1, 99), 4, 4), NO_ROOT);
    IS(rheap_root(&heap, ARRAY, &value), DONE);
    TELLS(value, RHEAP_NIL, 0);
    IS(rheap_array_make(&scope, ARRAY, 4, 4), DONE);
    EACH_CALL(&theirs, ARRAY, NOT_YOURS, NOT_YOURS);
    IS(rheap_array_make(&high, ARRAY, 4, 4), NO_ROOT);
    EACH_CALL(&high, ARRAY, NO_ROOT, DONE);
    IS(rheap_array_set_int(&scope, ARRAY, 0, RHEAP_MAX_INT + 1), INT_RANGE);
    IS(rheap_array_push_int(&scope, ARRAY, RHEAP_MIN_INT - 1), INT_RANGE);
    IS(rheap_array_set_root(&scope, ARRAY, 0, rheap_slot(2, 0)), NOT_YOURS);
    IS(rheap_array_push_root(&scope, ARRAY, rheap_slot(1, 99)), NO_ROOT);
    IS(rheap_array_length(&scope, ARRAY, &k), DONE);
    EQUALS(k, 4);
    IS(rheap_array_set_nil(&scope, ARRAY, 4), NO_FIELD);
    IS(rheap_array_get(&scope, rheap_slot(2, 0), ARRAY, 0, &value), NOT_YOURS);
    clean(__LINE__);
}

/* A heap that is full: what an array had it has still, and more once there is room. */
static void full(void) {
    uint32_t length = 0;
    uint32_t told;
    uint32_t k;
    uint8_t status;
    rheap_value value;
    IS(rheap_drop(&heap, 1, ITEM), DONE);
    IS(rheap_array_make(&scope, OTHER, 4000, 32), DONE);
    IS(rheap_array_make_raw(&scope, ARRAY, 0, 32), DONE);
    while ((status = rheap_array_push_int(&scope, ARRAY, length)) == RHEAP_DONE) {
        length++;
    }
    EQUALS(status, RHEAP_SPACE_FULL);
    EQUALS(length > 1000, 1);
    IS(rheap_array_grow(&scope, ARRAY, length + 100), SPACE_FULL);
    IS(rheap_array_make(&scope, ITEM, 4000, 32), SPACE_FULL);
    IS(rheap_root(&heap, ITEM, &value), DONE);
    EQUALS(value.kind, RHEAP_NIL);
    IS(rheap_array_length(&scope, ARRAY, &told), DONE);
    EQUALS(told, length);
    for (k = 0; k < length; k++) {
        IS(rheap_array_peek(&scope, ARRAY, k, &value), DONE);
        TELLS(value, RHEAP_NUMBER, k);
    }
    clean(__LINE__);
    IS(rheap_drop(&heap, 1, OTHER), DONE);
    for (k = 0; k < 1000; k++) {
        IS(rheap_array_push_int(&scope, ARRAY, length + k), DONE);
    }
    for (k = 0; k < length + 1000; k++) {
        IS(rheap_array_peek(&scope, ARRAY, k, &value), DONE);
        TELLS(value, RHEAP_NUMBER, k);
    }
}

/* How many chunks the array has. */
static uint32_t chunks(void) {
    uint32_t count = 0;
    rheap_value directory;
    rheap_value value = {RHEAP_OBJECT, 0, 0};
    IS(rheap_load(&heap, 1, ITEM, ARRAY, RHEAP_ARRAY_DIRECTORY, &directory), DONE);
    while (count < directory.fields && value.kind != RHEAP_NIL) {
        IS(rheap_peek(&heap, 1, ITEM, count, &value), DONE);
        count += value.kind != RHEAP_NIL;
    }
    IS(rheap_drop(&heap, 1, ITEM), DONE);
    return count;
}

/* A growth that is refused lets go what it made, and nothing that was there before. */
static void refused_growth(int is_raw) {
    uint32_t length = 0;
    uint32_t turn;
    rheap_value value;
    IS(rheap_drop(&heap, 1, OTHER), DONE);
    IS(rheap_array_make_as(&scope, ARRAY, 300, 254, is_raw), DONE);
    IS(rheap_array_set_int(&scope, ARRAY, 299, 5), DONE);
    EQUALS(chunks(), 2);
    IS(rheap_array_reserve(&scope, ARRAY, 1000), DONE);
    EQUALS(chunks(), 4);
    for (turn = 0; turn < 3; turn++) {
        IS(rheap_array_grow(&scope, ARRAY, 20000), SPACE_FULL);
        EQUALS(chunks(), 4);
        IS(rheap_array_reserve(&scope, ARRAY, 20000), SPACE_FULL);
        IS(rheap_insist_alloc(&heap, 1, ITEM, 20), DONE);
        IS(rheap_array_make(&scope, OTHER, 3000, 254), DONE);
        IS(rheap_drop(&heap, 1, OTHER), DONE);
    }
    IS(rheap_array_length(&scope, ARRAY, &length), DONE);
    EQUALS(length, 300);
    IS(rheap_array_peek(&scope, ARRAY, 299, &value), DONE);
    TELLS(value, RHEAP_NUMBER, 5);
    IS(rheap_array_grow(&scope, ARRAY, 2000), DONE);
    EQUALS(chunks(), 8);
    IS(rheap_array_set_int(&scope, ARRAY, 1999, 6), DONE);
    IS(rheap_array_peek(&scope, ARRAY, 299, &value), DONE);
    TELLS(value, RHEAP_NUMBER, 5);
    clean(__LINE__);
}

/* The program's own field is left alone, and the largest chunks are there. */
static void own_field(void) {
    rheap_value value;
    uint32_t length = 0;
    IS(rheap_open_sized(&heap, 60000, RHEAP_ARRAY_MAX_CHUNK + 2, 32, 3, 12), DONE);
    IS(rheap_array_make(&scope, ARRAY, 3, RHEAP_ARRAY_MAX_CHUNK), DONE);
    IS(rheap_insist_store_int(&heap, 1, ARRAY, RHEAP_ARRAY_OWN, 42), DONE);
    IS(rheap_array_grow(&scope, ARRAY, 9000), DONE);
    IS(rheap_array_set_int(&scope, ARRAY, 8999, 7), DONE);
    IS(rheap_array_peek(&scope, ARRAY, 8999, &value), DONE);
    TELLS(value, RHEAP_NUMBER, 7);
    IS(rheap_array_push_int(&scope, ARRAY, 8), DONE);
    IS(rheap_array_length(&scope, ARRAY, &length), DONE);
    EQUALS(length, 9001);
    IS(rheap_peek(&heap, 1, ARRAY, RHEAP_ARRAY_OWN, &value), DONE);
    TELLS(value, RHEAP_NUMBER, 42);
    IS(rheap_close(&heap), DONE);
}

/* A directory that doubles gets no more places than an object has fields. */
static void most_chunks(void) {
    rheap_value value;
    uint32_t length = 0;
    IS(rheap_open_sized(&heap, 60000, RHEAP_MAX_FIELDS + 2, 32, 3, 12), DONE);
    IS(rheap_array_make_raw(&scope, ARRAY, 2 * 2100, 2), DONE);
    IS(rheap_array_push_int(&scope, ARRAY, 7), DONE);
    IS(rheap_load(&heap, 1, ITEM, ARRAY, RHEAP_ARRAY_DIRECTORY, &value), DONE);
    EQUALS(value.fields, RHEAP_MAX_FIELDS);
    IS(rheap_array_grow(&scope, ARRAY, 2 * RHEAP_MAX_FIELDS), DONE);
    IS(rheap_array_grow(&scope, ARRAY, 2 * RHEAP_MAX_FIELDS + 1), FIELDS_RANGE);
    IS(rheap_array_push_int(&scope, ARRAY, 8), FIELDS_RANGE);
    IS(rheap_array_length(&scope, ARRAY, &length), DONE);
    EQUALS(length, 2 * RHEAP_MAX_FIELDS);
    IS(rheap_array_peek(&scope, ARRAY, 2 * 2100, &value), DONE);
    TELLS(value, RHEAP_NUMBER, 7);
    clean(__LINE__);
    IS(rheap_close(&heap), DONE);
}

int main(void) {
    uint32_t count;
    IS(rheap_array_make(&scope, ARRAY, 1, 2), NOT_OPEN);
    IS(rheap_array_length(&scope, ARRAY, &count), NOT_OPEN);
    IS(rheap_array_push_int(&scope, ARRAY, 1), NOT_OPEN);
    IS(rheap_open_sized(&heap, 12000, 300, 32, 3, 12), DONE);
    if (heap.at == NULL) {
        return 1;
    }
    beside_a_row(2, 0);
    beside_a_row(10, 1);
    beside_a_row(256, 0);
    references();
    in_a_row();
    bytes();
    bits();
    mistakes();
    full();
    refused_growth(0);
    refused_growth(1);
    IS(rheap_close(&heap), DONE);
    own_field();
    most_chunks();
    return wrong;
}
