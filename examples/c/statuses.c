/* Each status but three, reached by each call that answers it, and what the calls tell then. The
   epochs and the numbers of stores are spent only after 2^62, and memory is refused in memory.c. Those
   of dumps and of memory that is given back are in views.c, and those of resizes in resizing.c. It
   is linked with --wrap for rheap_drop. Prints nothing where all is as it should be. */
#include "rheap.h"
#include <stdio.h>
#include <string.h>

static int wrong = 0;

/* What the drops of a scope are to answer, from `scripted` on; the library answers where it is null. */
static const uint8_t *scripted = NULL;

#ifdef __cplusplus
extern "C" {
#endif
uint8_t __real_rheap_drop(rheap *heap, uint32_t owner, rheap_root_id root);
uint8_t __wrap_rheap_drop(rheap *heap, uint32_t owner, rheap_root_id root);

uint8_t __wrap_rheap_drop(rheap *heap, uint32_t owner, rheap_root_id root) {
    return scripted != NULL ? *scripted++ : __real_rheap_drop(heap, owner, root);
}
#ifdef __cplusplus
}
#endif

static void expect(const char *call, int line, uint8_t got, uint8_t due) {
    if (got != due) {
        printf("line %d: %s: %s, not %s\n", line, call, rheap_name(got), rheap_name(due));
        wrong = 1;
    }
}

static void expect_number(const char *what, int line, int64_t got, int64_t due) {
    if (got != due) {
        printf("line %d: %s: %ld, not %ld\n", line, what, (long)got, (long)due);
        wrong = 1;
    }
}

#define IS(call, status) expect(#call, __LINE__, call, RHEAP_##status)
#define EQUALS(what, number) expect_number(#what, __LINE__, (int64_t)(what), (int64_t)(number))

static rheap_value junk_value(void) {
    rheap_value value;
    memset(&value, 0x5a, sizeof value);
    return value;
}

#define TELLS(value, is_kind, has_fields, is_number)                                               \
    do {                                                                                           \
        EQUALS((value).kind, is_kind);                                                             \
        EQUALS((value).fields, has_fields);                                                        \
        EQUALS((value).number, is_number);                                                         \
        (value) = junk_value();                                                                    \
    } while (0)

/* Each call on a handle that holds no heap. */
static void without_a_heap(rheap *heap) {
    rheap_root_id root = rheap_slot(0, 0);
    rheap_init init = rheap_of_nil();
    rheap_value value = junk_value();
    rheap_stats stats;
    rheap_did did;
    rheap_pacing pacing;
    rheap_words words;
    int64_t numbers[2] = {5, 6};
    char text[8] = "as was.";
    uint8_t same = 7;
    uint32_t fields = 7;
    uint32_t count = 7;

    memset(&words, 0x5a, sizeof words);
    memset(&stats, 0x5a, sizeof stats);
    memset(&did, 0x5a, sizeof did);
    memset(&pacing, 0x5a, sizeof pacing);
    IS(rheap_close(heap), NOT_OPEN);
    IS(rheap_resize(heap, 1000, 100, 4), NOT_OPEN);
    IS(rheap_resize_sized(heap, 1000, 4), NOT_OPEN);
    IS(rheap_alloc(heap, 0, root, 1), NOT_OPEN);
    IS(rheap_alloc_raw(heap, 0, root, 1), NOT_OPEN);
    IS(rheap_load(heap, 0, root, root, 0, &value), NOT_OPEN);
    TELLS(value, RHEAP_NIL, 0, 0);
    IS(rheap_load_untold(heap, 0, root, root, 0), NOT_OPEN);
    IS(rheap_store_nil(heap, 0, root, 0), NOT_OPEN);
    IS(rheap_store_int(heap, 0, root, 0, 1), NOT_OPEN);
    IS(rheap_store_root(heap, 0, root, 0, root), NOT_OPEN);
    IS(rheap_store_ints(heap, 0, root, 0, numbers, 2), NOT_OPEN);
    IS(rheap_store_ints(heap, 0, root, 0, numbers, 0), NOT_OPEN);
    IS(rheap_insist_store_ints(heap, 0, root, 0, numbers, 2), NOT_OPEN);
    IS(rheap_load_ints(heap, 0, root, 0, numbers, 2, &count), NOT_OPEN);
    EQUALS(count, 0);
    EQUALS(numbers[0] * 10 + numbers[1], 56);
    IS(rheap_store_text(heap, 0, root, 0, text, 7), NOT_OPEN);
    IS(rheap_insist_store_text(heap, 0, root, 0, text, 7), NOT_OPEN);
    count = 7;
    IS(rheap_load_text(heap, 0, root, 0, text, 7, &count), NOT_OPEN);
    EQUALS(count, 0);
    EQUALS(strcmp(text, "as was."), 0);
    IS(rheap_copy(heap, 0, root, root), NOT_OPEN);
    IS(rheap_drop(heap, 0, root), NOT_OPEN);
    IS(rheap_same(heap, 0, root, root, &same), NOT_OPEN);
    EQUALS(same, 0);
    IS(rheap_insist_alloc(heap, 0, root, 1), NOT_OPEN);
    IS(rheap_insist_alloc_raw(heap, 0, root, 1), NOT_OPEN);
    IS(rheap_make(heap, 0, root, 1, &init, 1), NOT_OPEN);
    IS(rheap_make_raw(heap, 0, root, 1, &init, 1), NOT_OPEN);
    IS(rheap_insist_make(heap, 0, root, 1, &init, 0), NOT_OPEN);
    IS(rheap_insist_make_raw(heap, 0, root, 1, &init, RHEAP_MAX_FIELDS + 1), NOT_OPEN);
    IS(rheap_insist_store_nil(heap, 0, root, 0), NOT_OPEN);
    IS(rheap_insist_store_int(heap, 0, root, 0, 1), NOT_OPEN);
    IS(rheap_insist_store_root(heap, 0, root, 0, root), NOT_OPEN);
    IS(rheap_root(heap, root, &value), NOT_OPEN);
    TELLS(value, RHEAP_NIL, 0, 0);
    IS(rheap_fields(heap, root, &fields), NOT_OPEN);
    EQUALS(fields, 0);
    IS(rheap_field(heap, root, 0, &value), NOT_OPEN);
    TELLS(value, RHEAP_NIL, 0, 0);
    IS(rheap_peek(heap, 0, root, 0, &value), NOT_OPEN);
    TELLS(value, RHEAP_NIL, 0, 0);
    IS(rheap_room(heap, 5, &words), NOT_OPEN);
    EQUALS(words.need, 0);
    EQUALS(words.free, 0);
    IS(rheap_collect(heap), NOT_OPEN);
    IS(rheap_increment(heap), NOT_OPEN);
    IS(rheap_stat(heap, &stats), NOT_OPEN);
    EQUALS(stats.used, 0);
    EQUALS(stats.root_words, 0);
    EQUALS(stats.cycle, 0);
    IS(rheap_last_did(heap, &did), NOT_OPEN);
    EQUALS(did.held, 0);
    EQUALS(did.flipped, 0);
    IS(rheap_pace(heap, &pacing), NOT_OPEN);
    EQUALS(pacing.mark, 0);
    EQUALS(pacing.log_limit, 0);
    if (heap->at != NULL) {
        printf("the handle isn't null\n");
        wrong = 1;
    }
}

/* Openings that are refused, which leave the handle as it was. */
static void refused_openings(rheap *heap) {
    IS(rheap_open(heap, 1000, 100, 4, 3, 2, 8), NO_PACE);
    IS(rheap_open(heap, 100, 100, 4, 32, 2, 8), NO_PACE);
    IS(rheap_open(heap, UINT32_MAX, UINT32_MAX, UINT32_MAX, UINT32_MAX, 2, 8), NO_PACE);
    IS(rheap_open(heap, 16777217, 100, 4, 32, 2, 8), BAD_SIZES);
    IS(rheap_open(heap, 1000, 100, 4, 65, 2, 8), BAD_SIZES);
    IS(rheap_open(heap, 1000, 100, 4, 32, 0, 8), BAD_SIZES);
    IS(rheap_open(heap, 1000, 100, 4, 32, 17, 8), BAD_SIZES);
    IS(rheap_open(heap, 1000, 100, 4, 32, 2, 0), BAD_SIZES);
    IS(rheap_open(heap, 1000, 100, 4, 32, 2, 257), BAD_SIZES);
    IS(rheap_open_sized(heap, 1000, 4, 3, 2, 8), NO_PACE);
    IS(rheap_open_sized(heap, 0, 0, 32, 2, 8), NO_PACE);
    IS(rheap_open_sized(heap, UINT32_MAX, UINT32_MAX, UINT32_MAX, 2, 8), NO_PACE);
    IS(rheap_open_sized(heap, UINT32_MAX, 4, 32, 2, 8), BAD_SIZES);
    IS(rheap_open_sized(heap, 1000, 4, 32, UINT32_MAX, UINT32_MAX), BAD_SIZES);
    IS(rheap_open(heap, 7, 0, 0, 64, 2, 8), BAD_SIZES);
    EQUALS(heap->at == NULL, 1);
}

/* The macros of limits: a heap at each, and none above. */
static void at_limits(rheap *heap) {
    rheap_root_id last = rheap_slot(RHEAP_MAX_OWNERS - 1, RHEAP_MAX_SLOTS - 1);
    rheap_root_id next = rheap_slot(RHEAP_MAX_OWNERS - 1, RHEAP_MAX_SLOTS);
    rheap_value value = junk_value();
    rheap_stats stats;
    rheap_words words;

    IS(rheap_open_sized(heap, RHEAP_MAX_WORDS + 1, 4, 32, 2, 8), BAD_SIZES);
    IS(rheap_open_sized(heap, 20000, 4, 32, RHEAP_MAX_OWNERS + 1, 8), BAD_SIZES);
    IS(rheap_open_sized(heap, 20000, 4, 32, 2, RHEAP_MAX_SLOTS + 1), BAD_SIZES);
    EQUALS(heap->at == NULL, 1);
    IS(rheap_open_sized(heap, RHEAP_MAX_WORDS, RHEAP_MAX_FIELDS + 2, 32, RHEAP_MAX_OWNERS,
                        RHEAP_MAX_SLOTS), DONE);
    if (heap->at == NULL) {
        return;
    }
    IS(rheap_stat(heap, &stats), DONE);
    EQUALS(stats.free, RHEAP_MAX_WORDS);
    memset(&words, 0x5a, sizeof words);
    IS(rheap_room(heap, RHEAP_MAX_FIELDS, &words), DONE);
    EQUALS(words.need, RHEAP_MAX_FIELDS + 2);
    EQUALS(words.free, RHEAP_MAX_WORDS);
    IS(rheap_room(heap, UINT32_MAX, &words), DONE);
    EQUALS(words.need, (int64_t)UINT32_MAX + 2);
    IS(rheap_alloc(heap, last.owner, last, RHEAP_MAX_FIELDS + 1), FIELDS_RANGE);
    IS(rheap_alloc(heap, last.owner, next, RHEAP_MAX_FIELDS), NO_ROOT);
    IS(rheap_alloc(heap, RHEAP_MAX_OWNERS, last, RHEAP_MAX_FIELDS), NO_ROOT);
    IS(rheap_alloc(heap, last.owner, last, RHEAP_MAX_FIELDS), DONE);
    IS(rheap_field(heap, last, RHEAP_MAX_FIELDS, &value), NO_FIELD);
    IS(rheap_field(heap, last, RHEAP_MAX_FIELDS - 1, &value), DONE);
    TELLS(value, RHEAP_NIL, 0, 0);
    IS(rheap_close(heap), DONE);
}

/* Mistakes of a program, in the order in which refusals come. */
static void mistakes(rheap *heap) {
    rheap_root_id shared = rheap_slot(0, 0);
    rheap_root_id mine = rheap_slot(1, 0);
    rheap_root_id other = rheap_slot(1, 1);
    rheap_root_id theirs = rheap_slot(2, 0);
    rheap_root_id no_slot = rheap_slot(1, 8);
    rheap_root_id no_owner = rheap_slot(3, 0);
    rheap_value value = junk_value();
    rheap_stats before;
    rheap_stats after;
    uint8_t same = 7;
    uint32_t fields = 7;

    IS(rheap_stat(heap, &before), DONE);

    /* An owner or a root that isn't there. */
    IS(rheap_alloc(heap, 3, mine, 1), NO_ROOT);
    IS(rheap_alloc(heap, 1, no_slot, 1), NO_ROOT);
    IS(rheap_alloc(heap, 1, no_owner, 1), NO_ROOT);
    IS(rheap_alloc(heap, UINT32_MAX, rheap_slot(UINT32_MAX, UINT32_MAX), 1), NO_ROOT);
    IS(rheap_alloc_raw(heap, 1, no_slot, 1), NO_ROOT);
    IS(rheap_load(heap, 1, mine, no_slot, 0, &value), NO_ROOT);
    TELLS(value, RHEAP_NIL, 0, 0);
    IS(rheap_load_untold(heap, 1, mine, no_slot, 0), NO_ROOT);
    IS(rheap_store_nil(heap, 1, no_slot, 0), NO_ROOT);
    IS(rheap_store_int(heap, 1, no_owner, 0, 1), NO_ROOT);
    IS(rheap_store_root(heap, 1, mine, 0, no_slot), NO_ROOT);
    IS(rheap_copy(heap, 1, mine, no_slot), NO_ROOT);
    IS(rheap_drop(heap, 1, no_slot), NO_ROOT);
    IS(rheap_same(heap, 1, mine, no_slot, &same), NO_ROOT);
    EQUALS(same, 0);
    IS(rheap_insist_alloc(heap, 1, no_slot, 1), NO_ROOT);
    IS(rheap_insist_alloc_raw(heap, 1, no_slot, 1), NO_ROOT);
    IS(rheap_insist_store_nil(heap, 1, no_slot, 0), NO_ROOT);
    IS(rheap_insist_store_int(heap, 1, no_slot, 0, 1), NO_ROOT);
    IS(rheap_insist_store_root(heap, 1, no_slot, 0, mine), NO_ROOT);
    IS(rheap_root(heap, no_slot, &value), NO_ROOT);
    TELLS(value, RHEAP_NIL, 0, 0);
    IS(rheap_fields(heap, no_owner, &fields), NO_ROOT);
    EQUALS(fields, 0);
    IS(rheap_field(heap, no_slot, 0, &value), NO_ROOT);
    TELLS(value, RHEAP_NIL, 0, 0);
    IS(rheap_peek(heap, 3, mine, 0, &value), NO_ROOT);
    IS(rheap_peek(heap, 1, no_slot, 0, &value), NO_ROOT);
    TELLS(value, RHEAP_NIL, 0, 0);

    /* Another owner's root. Owner 0's are shared. */
    IS(rheap_alloc(heap, 1, theirs, 1), NOT_YOURS);
    IS(rheap_alloc_raw(heap, 1, theirs, 1), NOT_YOURS);
    IS(rheap_load(heap, 1, mine, theirs, 0, &value), NOT_YOURS);
    IS(rheap_load_untold(heap, 1, mine, theirs, 0), NOT_YOURS);
    IS(rheap_store_nil(heap, 1, theirs, 0), NOT_YOURS);
    IS(rheap_store_int(heap, 1, theirs, 0, 1), NOT_YOURS);
    IS(rheap_store_root(heap, 1, theirs, 0, mine), NOT_YOURS);
    IS(rheap_copy(heap, 1, mine, theirs), NOT_YOURS);
    IS(rheap_drop(heap, 1, theirs), NOT_YOURS);
    IS(rheap_same(heap, 1, mine, theirs, &same), NOT_YOURS);
    IS(rheap_peek(heap, 1, theirs, 0, &value), NOT_YOURS);
    IS(rheap_insist_alloc(heap, 1, theirs, 1), NOT_YOURS);
    IS(rheap_insist_alloc_raw(heap, 1, theirs, 1), NOT_YOURS);
    IS(rheap_insist_store_nil(heap, 1, theirs, 0), NOT_YOURS);
    IS(rheap_insist_store_int(heap, 1, theirs, 0, 1), NOT_YOURS);
    IS(rheap_insist_store_root(heap, 1, mine, 0, theirs), NOT_YOURS);
    IS(rheap_drop(heap, 1, shared), DONE);

    /* No object. */
    IS(rheap_load(heap, 1, mine, mine, 0, &value), NOT_OBJECT);
    TELLS(value, RHEAP_NIL, 0, 0);
    IS(rheap_load_untold(heap, 1, mine, mine, 0), NOT_OBJECT);
    IS(rheap_store_nil(heap, 1, mine, 0), NOT_OBJECT);
    IS(rheap_store_int(heap, 1, mine, 0, 1), NOT_OBJECT);
    IS(rheap_store_root(heap, 1, mine, 0, mine), NOT_OBJECT);
    IS(rheap_fields(heap, mine, &fields), NOT_OBJECT);
    IS(rheap_field(heap, mine, 0, &value), NOT_OBJECT);
    IS(rheap_peek(heap, 1, mine, 0, &value), NOT_OBJECT);
    IS(rheap_insist_store_nil(heap, 1, mine, 0), NOT_OBJECT);
    IS(rheap_insist_store_int(heap, 1, mine, 0, 1), NOT_OBJECT);
    IS(rheap_insist_store_root(heap, 1, mine, 0, mine), NOT_OBJECT);

    /* Too many fields. */
    IS(rheap_alloc(heap, 1, mine, 4096), FIELDS_RANGE);
    IS(rheap_alloc(heap, 1, mine, UINT32_MAX), FIELDS_RANGE);
    IS(rheap_alloc_raw(heap, 1, mine, 4096), FIELDS_RANGE);
    IS(rheap_insist_alloc(heap, 1, mine, 4096), FIELDS_RANGE);
    IS(rheap_insist_alloc_raw(heap, 1, mine, UINT32_MAX), FIELDS_RANGE);
    IS(rheap_shared_alloc(heap, 0, 4096), FIELDS_RANGE);
    IS(rheap_shared_alloc_raw(heap, 0, 4096), FIELDS_RANGE);
    IS(rheap_shared_insist_alloc(heap, 0, 4096), FIELDS_RANGE);
    IS(rheap_shared_insist_alloc_raw(heap, 0, UINT32_MAX), FIELDS_RANGE);
    IS(rheap_alloc(heap, 1, no_slot, 4096), NO_ROOT);
    IS(rheap_alloc_raw(heap, 1, theirs, 4096), NOT_YOURS);
    IS(rheap_insist_alloc(heap, 1, theirs, 4096), NOT_YOURS);
    IS(rheap_insist_alloc_raw(heap, 1, no_slot, 4096), NO_ROOT);

    /* Of an object: no field, no reference in a raw one, no number without a word. */
    IS(rheap_alloc(heap, 1, mine, 2), DONE);
    IS(rheap_alloc_raw(heap, 1, other, 1), DONE);
    IS(rheap_load(heap, 1, mine, mine, 2, &value), NO_FIELD);
    IS(rheap_load_untold(heap, 1, mine, mine, 2), NO_FIELD);
    IS(rheap_store_nil(heap, 1, mine, 2), NO_FIELD);
    IS(rheap_store_int(heap, 1, mine, UINT32_MAX, 1), NO_FIELD);
    IS(rheap_store_root(heap, 1, mine, 2, mine), NO_FIELD);
    IS(rheap_field(heap, mine, 2, &value), NO_FIELD);
    TELLS(value, RHEAP_NIL, 0, 0);
    IS(rheap_peek(heap, 1, mine, UINT32_MAX, &value), NO_FIELD);
    IS(rheap_insist_store_nil(heap, 1, mine, 2), NO_FIELD);
    IS(rheap_insist_store_int(heap, 1, mine, 2, 1), NO_FIELD);
    IS(rheap_insist_store_root(heap, 1, mine, UINT32_MAX, mine), NO_FIELD);
    IS(rheap_store_root(heap, 1, other, 0, mine), RAW_FIELD);
    IS(rheap_insist_store_root(heap, 1, other, 0, other), RAW_FIELD);
    IS(rheap_store_int(heap, 1, mine, 0, RHEAP_MAX_INT + 1), INT_RANGE);
    IS(rheap_store_int(heap, 1, mine, 0, RHEAP_MIN_INT - 1), INT_RANGE);
    IS(rheap_store_int(heap, 1, mine, 0, INT64_MAX), INT_RANGE);
    IS(rheap_insist_store_int(heap, 1, mine, 0, INT64_MIN), INT_RANGE);

    /* Nothing of this changed the heap but the two objects. */
    IS(rheap_stat(heap, &after), DONE);
    EQUALS(after.used, before.used + 7);
    EQUALS(after.number, before.number);
}

/* What is read where a call on fields in a row is refused: nothing. */
static void reads_nothing(rheap *heap, int line, uint32_t owner, rheap_root_id object,
                          uint32_t from, size_t length, uint8_t due) {
    static int64_t numbers[RHEAP_MAX_FIELDS + 2];
    static char text[7 * (RHEAP_MAX_FIELDS + 2)];
    uint32_t count = 7;
    uint8_t status;
    size_t at;
    memset(numbers, 0x5a, sizeof numbers);
    memset(text, 0x5a, sizeof text);
    status = rheap_load_ints(heap, owner, object, from, numbers, length, &count);
    expect("rheap_load_ints", line, status, due);
    expect_number("count", line, count, 0);
    count = 7;
    status = rheap_load_text(heap, owner, object, from, text, 7 * length, &count);
    expect("rheap_load_text", line, status, due);
    expect_number("count", line, count, 0);
    status = rheap_store_text(heap, owner, object, from, text, 7 * length);
    expect("rheap_store_text", line, status, due);
    for (at = 0; at < sizeof text; at++) {
        expect_number("a byte of the text", line, text[at], 0x5a);
    }
    for (at = 0; at < RHEAP_MAX_FIELDS + 2; at++) {
        expect_number("a number", line, numbers[at], INT64_C(0x5a5a5a5a5a5a5a5a));
    }
}

#define READS_NOTHING(owner, object, from, length, status)                                         \
    reads_nothing(heap, __LINE__, owner, object, from, length, RHEAP_##status)

/* Refused calls on fields in a row. */
static void mistakes_in_a_row(rheap *heap) {
    rheap_root_id mine = rheap_slot(1, 0);
    rheap_root_id raw = rheap_slot(1, 1);
    rheap_root_id theirs = rheap_slot(2, 0);
    rheap_root_id no_slot = rheap_slot(1, 8);
    rheap_stats before;
    rheap_stats after;
    int64_t numbers[4] = {1, 2, 3, 4};
    int64_t bad[3] = {1, RHEAP_MAX_INT + 1, 3};
    uint32_t steps[2] = {3, 0};
    size_t done = 7;
    rheap_value value = junk_value();
    uint32_t count = 7;

    IS(rheap_drop(heap, 1, mine), DONE);
    IS(rheap_stat(heap, &before), DONE);
    IS(rheap_store_ints(heap, 3, mine, 0, numbers, 2), NO_ROOT);
    IS(rheap_insist_store_ints(heap, 3, mine, 0, numbers, 2), NO_ROOT);
    IS(rheap_store_ints(heap, 1, no_slot, 0, numbers, 2), NO_ROOT);
    READS_NOTHING(3, mine, 0, 2, NO_ROOT);
    READS_NOTHING(1, no_slot, 0, 2, NO_ROOT);
    IS(rheap_store_ints(heap, 1, theirs, 0, numbers, 2), NOT_YOURS);
    IS(rheap_insist_store_ints(heap, 1, theirs, 0, numbers, 2), NOT_YOURS);
    READS_NOTHING(1, theirs, 0, 2, NOT_YOURS);
    IS(rheap_store_ints(heap, 1, mine, 0, numbers, 2), NOT_OBJECT);
    IS(rheap_insist_store_ints(heap, 1, mine, 0, numbers, 2), NOT_OBJECT);
    IS(rheap_insist_store_text(heap, 1, no_slot, 0, "a", 1), NO_ROOT);
    IS(rheap_insist_store_text(heap, 1, theirs, 0, "a", 1), NOT_YOURS);
    IS(rheap_insist_store_text(heap, 1, mine, 0, "a", 1), NOT_OBJECT);
    IS(rheap_store_roots(heap, 1, theirs, 0, mine, 1, &done), NOT_YOURS);
    IS(rheap_store_roots(heap, 1, mine, 0, mine, 1, &done), NOT_OBJECT);
    IS(rheap_insist_store_roots(heap, 1, no_slot, 0, mine, 1, &done), NO_ROOT);
    IS(rheap_insist_store_roots(heap, 1, mine, 0, mine, 1, &done), NOT_OBJECT);
    IS(rheap_store_ints(heap, 1, mine, 0, bad + 1, 1), NOT_OBJECT);
    READS_NOTHING(1, mine, 0, 2, NOT_OBJECT);
    READS_NOTHING(1, mine, 0, RHEAP_MAX_FIELDS + 2, NOT_OBJECT);

    /* Without numbers nothing is asked for. */
    IS(rheap_store_ints(heap, 1, no_slot, 9, numbers, 0), DONE);
    IS(rheap_load_ints(heap, 3, theirs, UINT32_MAX, numbers, 0, &count), DONE);
    EQUALS(count, 0);

    /* Past the last field, of an object and of a raw one. Of two mistakes the first field's comes. */
    IS(rheap_alloc(heap, 1, mine, 3), DONE);
    IS(rheap_alloc_raw(heap, 1, raw, 3), DONE);
    IS(rheap_insist_store_roots(heap, 1, raw, 0, mine, 1, &done), RAW_FIELD);
    IS(rheap_load_path(heap, 1, raw, mine, steps, 2, &done, &value), NO_FIELD);
    EQUALS(done, 0);
    TELLS(value, RHEAP_NIL, 0, 0);
    IS(rheap_store_ints(heap, 1, mine, 0, numbers, 4), NO_FIELD);
    IS(rheap_insist_store_ints(heap, 1, mine, 0, numbers, 4), NO_FIELD);
    IS(rheap_store_ints(heap, 1, mine, 3, numbers, 1), NO_FIELD);
    IS(rheap_store_ints(heap, 1, mine, UINT32_MAX, numbers, 2), NO_FIELD);
    IS(rheap_store_ints(heap, 1, raw, 1, numbers, 3), NO_FIELD);
    READS_NOTHING(1, raw, 0, 4, NO_FIELD);
    READS_NOTHING(1, raw, 3, 1, NO_FIELD);
    READS_NOTHING(1, raw, UINT32_MAX, 2, NO_FIELD);
    READS_NOTHING(1, raw, 1, RHEAP_MAX_FIELDS, NO_FIELD);
    READS_NOTHING(1, raw, 0, RHEAP_MAX_FIELDS + 1, NO_FIELD);
    READS_NOTHING(1, raw, 0, RHEAP_MAX_FIELDS + 2, NO_FIELD);
    IS(rheap_store_ints(heap, 1, mine, 0, bad, 3), INT_RANGE);
    IS(rheap_insist_store_ints(heap, 1, mine, 0, bad, 3), INT_RANGE);
    IS(rheap_store_ints(heap, 1, mine, 1, bad, 3), INT_RANGE);
    IS(rheap_store_ints(heap, 1, mine, 2, bad, 3), NO_FIELD);
    bad[1] = RHEAP_MIN_INT - 1;
    IS(rheap_store_ints(heap, 1, raw, 0, bad, 3), INT_RANGE);
    IS(rheap_load_ints(heap, 1, mine, 0, numbers, 3, &count), DONE);
    EQUALS(count, 0);
    IS(rheap_stat(heap, &after), DONE);
    EQUALS(after.number, before.number);
}

/* Numbers and texts in fields in a row. */
static void in_a_row(rheap *heap) {
    rheap_root_id raw = rheap_slot(1, 1);
    int64_t numbers[5] = {RHEAP_MIN_INT, RHEAP_MAX_INT, -1, 0, 7};
    int64_t read[5] = {1, 1, 1, 1, 1};
    unsigned char bytes[40];
    unsigned char back[40];
    rheap_value value = junk_value();
    rheap_stats stats;
    uint64_t number;
    uint32_t count = 7;
    size_t length;
    size_t at;

    EQUALS(rheap_text_fields(0), 0);
    EQUALS(rheap_text_fields(1), 1);
    EQUALS(rheap_text_fields(7), 1);
    EQUALS(rheap_text_fields(8), 2);
    EQUALS(rheap_text_fields(7 * RHEAP_MAX_FIELDS), RHEAP_MAX_FIELDS);
    EQUALS(rheap_text_fields(7 * RHEAP_MAX_FIELDS + 1), RHEAP_MAX_FIELDS + 1);
    EQUALS(rheap_text_fields(SIZE_MAX), RHEAP_MAX_FIELDS + 1);

    /* Field 0 is nil, and so is field 6: what is read ends there. */
    IS(rheap_alloc_raw(heap, 1, raw, 7), DONE);
    IS(rheap_stat(heap, &stats), DONE);
    number = stats.number;
    IS(rheap_store_ints(heap, 1, raw, 1, numbers, 5), DONE);
    IS(rheap_stat(heap, &stats), DONE);
    EQUALS(stats.number, number + 5);
    IS(rheap_load_ints(heap, 1, raw, 0, read, 5, &count), DONE);
    EQUALS(count, 0);
    EQUALS(read[0], 1);
    IS(rheap_load_ints(heap, 1, raw, 1, read, 5, &count), DONE);
    EQUALS(count, 5);
    EQUALS(memcmp(read, numbers, sizeof numbers), 0);
    IS(rheap_load_ints(heap, 1, raw, 4, read, 3, &count), DONE);
    EQUALS(count, 2);
    EQUALS(read[1], 7);
    EQUALS(read[2], -1);

    /* A text of each length, where its array ends: each byte stands at its place, and no other byte
       is written. */
    IS(rheap_alloc_raw(heap, 1, raw, 6), DONE);
    for (at = 0; at < sizeof bytes; at++) {
        bytes[at] = (unsigned char)(255 - 3 * at);
    }
    for (length = 0; length <= sizeof bytes; length++) {
        const unsigned char *text = bytes + (sizeof bytes - length);
        IS(rheap_store_text(heap, 1, raw, 0, text, length), DONE);
        for (at = 0; at < length; at++) {
            IS(rheap_peek(heap, 1, raw, (uint32_t)(at / 7), &value), DONE);
            EQUALS(value.number >> (8 * (at % 7)) & 0xff, text[at]);
        }
        EQUALS(length % 7 != 0 && value.number >> (8 * (length % 7)) != 0, 0);
        memset(back, 0x5a, sizeof back);
        count = 7;
        IS(rheap_load_text(heap, 1, raw, 0, back, length, &count), DONE);
        EQUALS(count, length);
        EQUALS(memcmp(back, text, length), 0);
        EQUALS(length < sizeof back && back[length] != 0x5a, 0);
    }

    /* A text goes to the fields from the one that is named, and the others stay. */
    IS(rheap_store_int(heap, 1, raw, 0, 11), DONE);
    IS(rheap_insist_store_text(heap, 1, raw, 1, "abcdefg", 7), DONE);
    IS(rheap_store_text(heap, 1, raw, 2, "h", 1), DONE);
    IS(rheap_peek(heap, 1, raw, 0, &value), DONE);
    EQUALS(value.number, 11);
    IS(rheap_peek(heap, 1, raw, 1, &value), DONE);
    EQUALS(value.number, 0x67666564636261);
    IS(rheap_load_text(heap, 1, raw, 1, back, 8, &count), DONE);
    EQUALS(count, 8);
    EQUALS(memcmp(back, "abcdefgh", 8), 0);
    IS(rheap_store_text(heap, 1, raw, 0, bytes, sizeof bytes), DONE);

    /* A field without a number ends what is read, and a number of no text tells its lowest bits. */
    IS(rheap_store_nil(heap, 1, raw, 2), DONE);
    IS(rheap_store_int(heap, 1, raw, 0, -1), DONE);
    memset(back, 0x5a, sizeof back);
    IS(rheap_load_text(heap, 1, raw, 0, back, 40, &count), DONE);
    EQUALS(count, 14);
    EQUALS(back[6], 0xff);
    EQUALS(memcmp(back + 7, bytes + 7, 7), 0);
    EQUALS(back[14], 0x5a);
    IS(rheap_load_text(heap, 1, raw, 2, back, 20, &count), DONE);
    EQUALS(count, 0);
}

/* The longest text, in an object of the most fields; and one that is far too long for any. */
static void longest_text(rheap *heap) {
    static char text[7 * RHEAP_MAX_FIELDS + 1];
    static char back[sizeof text];
    static char huge[1 << 20];
    rheap_root_id raw = rheap_slot(1, 1);
    uint32_t count = 7;
    size_t at;
    for (at = 0; at < sizeof text; at++) {
        text[at] = (char)(at % 127);
    }
    IS(rheap_alloc_raw(heap, 1, raw, rheap_text_fields(sizeof text)), FIELDS_RANGE);
    IS(rheap_alloc_raw(heap, 1, raw, rheap_text_fields(sizeof text - 1)), DONE);
    IS(rheap_store_text(heap, 1, raw, 0, text, sizeof text), NO_FIELD);
    IS(rheap_store_text(heap, 1, raw, 1, text, sizeof text - 1), NO_FIELD);
    IS(rheap_store_text(heap, 1, raw, 0, text, sizeof text - 1), DONE);
    IS(rheap_load_text(heap, 1, raw, 0, back, sizeof text, &count), NO_FIELD);
    EQUALS(count, 0);
    IS(rheap_load_text(heap, 1, raw, 0, back, sizeof text - 1, &count), DONE);
    EQUALS(count, sizeof text - 1);
    EQUALS(memcmp(text, back, sizeof text - 1), 0);
    IS(rheap_store_text(heap, 1, raw, 0, huge, sizeof huge), NO_FIELD);
    IS(rheap_insist_store_text(heap, 1, raw, 0, huge, sizeof huge), NO_FIELD);
    IS(rheap_load_text(heap, 1, raw, 0, huge, sizeof huge, &count), NO_FIELD);
    EQUALS(count, 0);
    IS(rheap_load_text(heap, 1, raw, 0, back, sizeof text - 1, &count), DONE);
    EQUALS(memcmp(text, back, sizeof text - 1), 0);
    IS(rheap_drop(heap, 1, raw), DONE);
}

/* What is done, and what is told of it. */
static void answers(rheap *heap) {
    rheap_root_id insisted = rheap_slot(1, 3);
    rheap_root_id shared = rheap_slot(0, 7);
    rheap_root_id mine = rheap_slot(1, 0);
    rheap_root_id other = rheap_slot(1, 1);
    rheap_root_id taken = rheap_slot(1, 2);
    rheap_value value = junk_value();
    uint8_t same = 7;
    uint32_t fields = 0;

    IS(rheap_alloc(heap, 1, mine, 3), DONE);
    IS(rheap_alloc_raw(heap, 1, other, 4095), DONE);
    IS(rheap_insist_alloc_raw(heap, 1, insisted, 6), DONE);
    IS(rheap_root(heap, insisted, &value), DONE);
    TELLS(value, RHEAP_RAW, 6, 0);
    IS(rheap_insist_alloc(heap, 1, insisted, 6), DONE);
    IS(rheap_root(heap, insisted, &value), DONE);
    TELLS(value, RHEAP_OBJECT, 6, 0);
    IS(rheap_drop(heap, 1, insisted), DONE);
    IS(rheap_root(heap, mine, &value), DONE);
    TELLS(value, RHEAP_OBJECT, 3, 0);
    IS(rheap_root(heap, other, &value), DONE);
    TELLS(value, RHEAP_RAW, 4095, 0);
    IS(rheap_fields(heap, other, &fields), DONE);
    EQUALS(fields, 4095);
    IS(rheap_field(heap, mine, 0, &value), DONE);
    TELLS(value, RHEAP_NIL, 0, 0);

    IS(rheap_store_int(heap, 1, mine, 0, RHEAP_MIN_INT), DONE);
    IS(rheap_insist_store_int(heap, 1, other, 4094, RHEAP_MAX_INT), DONE);
    IS(rheap_store_root(heap, 1, mine, 1, mine), DONE);
    IS(rheap_insist_store_root(heap, 1, mine, 2, other), DONE);
    IS(rheap_field(heap, mine, 0, &value), DONE);
    TELLS(value, RHEAP_NUMBER, 0, RHEAP_MIN_INT);
    IS(rheap_peek(heap, 1, other, 4094, &value), DONE);
    TELLS(value, RHEAP_NUMBER, 0, RHEAP_MAX_INT);
    IS(rheap_peek(heap, 1, mine, 2, &value), DONE);
    TELLS(value, RHEAP_RAW, 4095, 0);

    IS(rheap_load(heap, 1, taken, mine, 1, &value), DONE);
    TELLS(value, RHEAP_OBJECT, 3, 0);
    IS(rheap_same(heap, 1, taken, mine, &same), DONE);
    EQUALS(same, 1);
    IS(rheap_same(heap, 1, taken, other, &same), DONE);
    EQUALS(same, 0);
    IS(rheap_load(heap, 1, taken, mine, 0, &value), DONE);
    TELLS(value, RHEAP_NUMBER, 0, RHEAP_MIN_INT);
    IS(rheap_root(heap, taken, &value), DONE);
    TELLS(value, RHEAP_NUMBER, 0, RHEAP_MIN_INT);
    IS(rheap_load_untold(heap, 1, taken, mine, 1), DONE);
    IS(rheap_same(heap, 1, taken, mine, &same), DONE);
    EQUALS(same, 1);
    IS(rheap_store_nil(heap, 1, mine, 0), DONE);
    IS(rheap_insist_store_nil(heap, 1, mine, 1), DONE);
    IS(rheap_field(heap, mine, 0, &value), DONE);
    TELLS(value, RHEAP_NIL, 0, 0);

    /* An object that two owners share, by owner 0's slot. */
    IS(rheap_copy(heap, 1, shared, mine), DONE);
    IS(rheap_copy(heap, 2, rheap_slot(2, 3), shared), DONE);
    IS(rheap_drop(heap, 1, mine), DONE);
    IS(rheap_drop(heap, 1, taken), DONE);
    IS(rheap_root(heap, mine, &value), DONE);
    TELLS(value, RHEAP_NIL, 0, 0);
    IS(rheap_same(heap, 2, rheap_slot(2, 3), shared, &same), DONE);
    EQUALS(same, 1);
    IS(rheap_peek(heap, 2, rheap_slot(2, 3), 2, &value), DONE);
    TELLS(value, RHEAP_RAW, 4095, 0);
}

/* What the collector tells. */
static void collecting(rheap *heap) {
    rheap_stats stats;
    rheap_did did;
    rheap_pacing pacing;
    uint64_t flips;
    uint64_t root_words;

    IS(rheap_pace(heap, &pacing), DONE);
    EQUALS(pacing.store_units, 32);
    EQUALS(pacing.mark > 0, 1);
    IS(rheap_stat(heap, &stats), DONE);
    flips = stats.flips;
    root_words = stats.root_words;
    IS(rheap_collect(heap), DONE);
    IS(rheap_last_did(heap, &did), DONE);
    EQUALS(did.flipped, 1);
    EQUALS(did.began, 1 - stats.cycle);
    EQUALS(did.held > 0, 1);
    EQUALS(did.shaded > 0, 1);
    EQUALS(did.roots > 0, 1);
    IS(rheap_stat(heap, &stats), DONE);
    EQUALS(stats.granted, 0);
    EQUALS(stats.spent > 0 && stats.spent <= stats.idle, 1);
    EQUALS(stats.placed + stats.missing + stats.log, 0);
    EQUALS(stats.number > 0, 1);
    EQUALS(stats.root_words, root_words + did.roots);
    EQUALS(stats.flips, flips + 1);
    EQUALS(stats.cycle, 0);
    EQUALS(stats.used, did.live_words);
    EQUALS(stats.epoch, stats.flips + 1);
    IS(rheap_increment(heap), DONE);
    IS(rheap_last_did(heap, &did), DONE);
    EQUALS(did.began, 0);
    EQUALS(did.flipped, 0);
    EQUALS(did.live_words, 0);
}

/* Puts cells before a list until a cycle is on, and then stores numbers until the log is full. */
static void fill_log(rheap *heap, rheap_root_id list, rheap_root_id cell) {
    rheap_stats stats;
    uint8_t status = RHEAP_DONE;
    int n;
    IS(rheap_stat(heap, &stats), DONE);
    for (n = 0; n < 1000 && stats.cycle == 0; n++) {
        IS(rheap_alloc(heap, 0, cell, 2), DONE);
        IS(rheap_store_root(heap, 0, cell, 1, list), DONE);
        IS(rheap_copy(heap, 0, list, cell), DONE);
        IS(rheap_stat(heap, &stats), DONE);
    }
    for (n = 0; n < 10000 && status == RHEAP_DONE; n++) {
        status = rheap_store_int(heap, 0, list, 0, n);
    }
    IS(status, LOG_FULL);
}

/* A heap with more that lives than was told: the space fills up, and so does the log. */
static void limits(void) {
    rheap heap = RHEAP_INIT;
    rheap_root_id list = rheap_slot(0, 0);
    rheap_root_id cell = rheap_slot(0, 1);
    rheap_stats stats;
    rheap_words words;
    rheap_init values[1];
    uint8_t status;
    int n;

    values[0] = rheap_of_int(1);
    /* 1,000 words at the lowest ratio, of which 10 were to live: a list of cells of 4 words. */
    IS(rheap_open(&heap, 1000, 10, 4, 4, 1, 2), DONE);
    if (heap.at == NULL) {
        return;
    }

    /* The log: what insists empties it, each in a cycle of its own. */
    fill_log(&heap, list, cell);
    IS(rheap_store_nil(&heap, 0, list, 0), LOG_FULL);
    IS(rheap_store_root(&heap, 0, list, 0, list), LOG_FULL);
    IS(rheap_shared_store_nil(&heap, 0, 0), LOG_FULL);
    IS(rheap_shared_store_int(&heap, 0, 0, 1), LOG_FULL);
    IS(rheap_shared_store_root(&heap, 0, 0, 0), LOG_FULL);
    IS(rheap_make(&heap, 0, cell, 2, values, 1), LOG_FULL);
    IS(rheap_make_raw(&heap, 0, cell, 2, values, 1), LOG_FULL);
    IS(rheap_insist_store_int(&heap, 0, list, 0, 1), DONE);
    fill_log(&heap, list, cell);
    IS(rheap_insist_store_nil(&heap, 0, list, 0), DONE);
    fill_log(&heap, list, cell);
    IS(rheap_insist_store_root(&heap, 0, list, 0, list), DONE);
    IS(rheap_stat(&heap, &stats), DONE);
    EQUALS(stats.flips, 3);
    IS(rheap_store_nil(&heap, 0, list, 0), DONE);

    /* The space. */
    status = RHEAP_DONE;
    for (n = 0; n < 1000 && status == RHEAP_DONE; n++) {
        status = rheap_insist_alloc(&heap, 0, cell, 2);
        if (status == RHEAP_DONE) {
            IS(rheap_insist_store_root(&heap, 0, cell, 1, list), DONE);
            IS(rheap_copy(&heap, 0, list, cell), DONE);
        }
    }
    IS(status, SPACE_FULL);
    IS(rheap_stat(&heap, &stats), DONE);
    EQUALS(stats.free < 4, 1);
    IS(rheap_room(&heap, 2, &words), DONE);
    EQUALS(words.need, 4);
    EQUALS(words.free, stats.free);
    IS(rheap_alloc(&heap, 0, cell, 2), SPACE_FULL);
    IS(rheap_alloc_raw(&heap, 0, cell, 2), SPACE_FULL);
    IS(rheap_insist_alloc_raw(&heap, 0, cell, 2), SPACE_FULL);
    IS(rheap_shared_insist_alloc_raw(&heap, 1, 2), SPACE_FULL);
    IS(rheap_make_raw(&heap, 0, cell, 2, values, 1), SPACE_FULL);

    /* Once the list is let go there is room again. */
    IS(rheap_drop(&heap, 0, list), DONE);
    IS(rheap_drop(&heap, 0, cell), DONE);
    IS(rheap_insist_alloc(&heap, 0, cell, 2), DONE);
    IS(rheap_close(&heap), DONE);
}

/* Numbers in a row where a cycle is on: the log has places for none, for all but one, for all. */
static void limits_in_a_row(void) {
    rheap heap = RHEAP_INIT;
    rheap_root_id list = rheap_slot(0, 0);
    rheap_root_id object = rheap_slot(0, 1);
    int64_t numbers[64] = {0};
    rheap_stats stats;
    uint64_t number;
    uint64_t flips;
    rheap_pacing pacing;
    rheap_value value = junk_value();
    uint32_t places;
    int n;

    IS(rheap_open(&heap, 1000, 10, 4, 4, 1, 2), DONE);
    if (heap.at == NULL) {
        return;
    }
    IS(rheap_pace(&heap, &pacing), DONE);
    EQUALS(pacing.log_limit < 64, 1);
    fill_log(&heap, list, object);
    IS(rheap_store_ints(&heap, 0, list, 0, numbers, 1), LOG_FULL);
    IS(rheap_store_ints(&heap, 0, list, 0, numbers, 3), NO_FIELD);
    IS(rheap_store_text(&heap, 0, list, 0, "a", 1), LOG_FULL);
    IS(rheap_store_ints(&heap, 0, list, 0, numbers, 0), DONE);
    IS(rheap_drop(&heap, 0, list), DONE);
    IS(rheap_drop(&heap, 0, object), DONE);

    /* After a collection no cycle is on: there is room for any number. */
    IS(rheap_collect(&heap), DONE);
    IS(rheap_collect(&heap), DONE);
    IS(rheap_alloc_raw(&heap, 0, object, 64), DONE);
    IS(rheap_store_ints(&heap, 0, object, 0, numbers, 64), DONE);
    IS(rheap_stat(&heap, &stats), DONE);
    EQUALS(stats.log, 0);
    for (n = 0; n < 1000 && stats.cycle == 0; n++) {
        IS(rheap_insist_alloc_raw(&heap, 0, object, 64), DONE);
        IS(rheap_stat(&heap, &stats), DONE);
    }
    EQUALS(stats.cycle, 1);
    number = stats.number;
    places = pacing.log_limit - (uint32_t)stats.log;
    EQUALS(places > 1, 1);
    IS(rheap_store_ints(&heap, 0, object, 0, numbers, places + 1), LOG_FULL);
    IS(rheap_field(&heap, object, 0, &value), DONE);
    TELLS(value, RHEAP_NIL, 0, 0);
    for (n = 0; n < 64; n++) {
        numbers[n] = n - 32;
    }
    IS(rheap_store_ints(&heap, 0, object, 0, numbers, places), DONE);
    IS(rheap_stat(&heap, &stats), DONE);
    EQUALS(stats.number, number + places);
    /* Insisting collects once, where a cycle is on whose log has fewer places. */
    for (n = 0; n < 1000 && stats.cycle == 0; n++) {
        IS(rheap_insist_alloc_raw(&heap, 0, object, 64), DONE);
        IS(rheap_stat(&heap, &stats), DONE);
    }
    EQUALS(stats.cycle, 1);
    flips = stats.flips;
    IS(rheap_store_text(&heap, 0, object, 0, numbers, 64 * 7), LOG_FULL);
    IS(rheap_insist_store_text(&heap, 0, object, 0, numbers, 64 * 7), DONE);
    IS(rheap_stat(&heap, &stats), DONE);
    EQUALS(stats.cycle, 0);
    EQUALS(stats.flips, flips + 1);
    IS(rheap_insist_store_ints(&heap, 0, object, 0, numbers, 64), DONE);
    IS(rheap_stat(&heap, &stats), DONE);
    EQUALS(stats.flips, flips + 1);
    IS(rheap_collect(&heap), DONE);
    IS(rheap_field(&heap, object, places - 1, &value), DONE);
    TELLS(value, RHEAP_NUMBER, 0, (int64_t)places - 33);
    IS(rheap_close(&heap), DONE);
}

/* Roots in a scope. */
static void scopes(rheap *heap) {
    static const uint8_t failures[] = {RHEAP_DONE, RHEAP_NO_ROOT, RHEAP_DONE, RHEAP_NOT_OPEN,
                                       RHEAP_DONE};
    rheap_scope scope = {heap, 2, 4};
    rheap_root_id first;
    rheap_root_id second;
    rheap_value value = junk_value();
    uint32_t mark = scope.top;

    first = rheap_push(&scope);
    second = rheap_push(&scope);
    EQUALS(first.slot, 4);
    EQUALS(second.slot, 5);
    IS(rheap_alloc(heap, 2, first, 1), DONE);
    IS(rheap_copy(heap, 2, second, first), DONE);
    IS(rheap_pop_to(&scope, mark), DONE);
    EQUALS(scope.top, 4);
    IS(rheap_root(heap, first, &value), DONE);
    TELLS(value, RHEAP_NIL, 0, 0);
    IS(rheap_root(heap, second, &value), DONE);
    TELLS(value, RHEAP_NIL, 0, 0);
    scope.top = 7;
    (void)rheap_push(&scope);
    IS(rheap_alloc(heap, 2, rheap_push(&scope), 1), NO_ROOT);
    IS(rheap_pop_to(&scope, mark), NO_ROOT);
    EQUALS(scope.top, 4);

    /* Drops that fail in two ways: the first is told, and all slots are taken back. */
    scope.top = 9;
    scripted = failures;
    IS(rheap_pop_to(&scope, mark), NO_ROOT);
    EQUALS(scripted - failures, 5);
    scripted = NULL;
    EQUALS(scope.top, 4);
}

/* The names of the statuses, in their order. */
static void names(void) {
    static const char *const due[] = {
        "DONE",          "NO_ROOT",      "NOT_YOURS",  "NOT_OBJECT", "NO_FIELD", "RAW_FIELD",
        "INT_RANGE",     "FIELDS_RANGE", "SPACE_FULL", "LOG_FULL",   "NUMBERS_SPENT",
        "EPOCHS_SPENT",  "NOT_OPEN",     "IS_OPEN",    "NO_PACE",    "BAD_SIZES",
        "NO_MEMORY",     "WATCHES_FULL", "NOT_WATCHED", "TICKETS_RANGE", "BAD_KIND",
        "BAD_GROWTH",    "TOO_LONG",     "CYCLE_ON",   "IN_USE",   "GROWS"};
    int status;

    for (status = 0; status < 256; status++) {
        const char *name = rheap_name((uint8_t)status);
        if (strcmp(name, status < 26 ? due[status] : "UNKNOWN") != 0) {
            printf("status %d is named %s\n", status, name);
            wrong = 1;
        }
    }
#define IS_NAMED(status) EQUALS(strcmp(rheap_name(RHEAP_##status), #status), 0)
    IS_NAMED(DONE);
    IS_NAMED(NO_ROOT);
    IS_NAMED(NOT_YOURS);
    IS_NAMED(NOT_OBJECT);
    IS_NAMED(NO_FIELD);
    IS_NAMED(RAW_FIELD);
    IS_NAMED(INT_RANGE);
    IS_NAMED(FIELDS_RANGE);
    IS_NAMED(SPACE_FULL);
    IS_NAMED(LOG_FULL);
    IS_NAMED(NUMBERS_SPENT);
    IS_NAMED(EPOCHS_SPENT);
    IS_NAMED(NOT_OPEN);
    IS_NAMED(IS_OPEN);
    IS_NAMED(NO_PACE);
    IS_NAMED(BAD_SIZES);
    IS_NAMED(NO_MEMORY);
    IS_NAMED(WATCHES_FULL);
    IS_NAMED(NOT_WATCHED);
    IS_NAMED(TICKETS_RANGE);
    IS_NAMED(BAD_KIND);
    IS_NAMED(BAD_GROWTH);
    IS_NAMED(TOO_LONG);
    IS_NAMED(CYCLE_ON);
    IS_NAMED(IN_USE);
    IS_NAMED(GROWS);
}

int main(void) {
    rheap heap = RHEAP_INIT;
    rheap moved;
    rheap second = RHEAP_INIT;
    rheap_stats stats;

    names();
    without_a_heap(&heap);
    refused_openings(&heap);
    at_limits(&heap);
    IS(rheap_open_sized(&heap, 20000, 4097, 32, 3, 8), NO_PACE);
    IS(rheap_open_sized(&heap, 30000, 4097, 32, 3, 8), DONE);
    if (heap.at == NULL) {
        return 1;
    }
    IS(rheap_open(&heap, 1000, 100, 4, 32, 2, 8), IS_OPEN);
    IS(rheap_open(&heap, 1000, 100, 4, 3, 2, 8), IS_OPEN);
    IS(rheap_open_sized(&heap, 30000, 4097, 32, 3, 8), IS_OPEN);
    IS(rheap_stat(&heap, &stats), DONE);
    EQUALS(stats.used, 0);
    EQUALS(stats.free, 30000);
    EQUALS(stats.epoch, 1);
    mistakes(&heap);
    mistakes_in_a_row(&heap);
    in_a_row(&heap);
    longest_text(&heap);
    answers(&heap);
    collecting(&heap);
    scopes(&heap);
    limits();
    limits_in_a_row();

    /* A second heap beside it, and a handle that is moved. */
    IS(rheap_open(&second, 1000, 100, 4, 32, 2, 8), DONE);
    moved = heap;
#ifdef __cplusplus
    heap = rheap RHEAP_INIT;
#else
    heap = (rheap)RHEAP_INIT;
#endif
    without_a_heap(&heap);
    collecting(&moved);
    IS(rheap_close(&moved), DONE);
    without_a_heap(&moved);
    IS(rheap_close(&second), DONE);

    /* A closed handle may be opened again. */
    IS(rheap_open_sized(&moved, 30000, 4097, 32, 3, 8), DONE);
    answers(&moved);
    IS(rheap_close(&moved), DONE);
    without_a_heap(&moved);
    return wrong;
}
