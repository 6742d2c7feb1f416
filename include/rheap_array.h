/*
 * rheap_array.h: long rows that grow, over the calls of rheap.h, for programs in C99 and C++11. It
 * is a header alone: beside the library there is nothing to link.
 *
 *     rheap_scope scope = {&heap, 1, 4};    slots of owner 1, from 4 on, for the calls to use
 *     rheap_root_id row = rheap_slot(1, 0);
 *     must(rheap_array_make(&scope, row, 0, 1022));
 *     must(rheap_array_push_int(&scope, row, 7));
 *     must(rheap_array_peek(&scope, row, 0, &value));
 *
 * An object has at most RHEAP_MAX_FIELDS fields. An array can have many more elements, since they
 * lie in several objects of equal size, its chunks. An array has at most RHEAP_MAX_FIELDS chunks;
 * of 4,094 elements each, these are as many as the largest heap has room for. As long as one chunk
 * is enough, that one starts small and doubles when it is full. An array grows in place: whatever
 * refers to it, a root or a field, goes on referring to the same array. It is an object of these
 * four fields:
 *
 *     0  the program's own, nil at first: a tag, say. No call here reads it or writes it.
 *     1  the number of its elements
 *     2  the number of elements in a whole chunk
 *     3  its directory, an object with a reference to each chunk
 *
 * An element is what a field is: nil, a whole number or a reference. The elements of an array from
 * rheap_array_make_raw are nil and numbers alone. Elements of any array can also be used as bits:
 * seven bytes to an element, or a 64-bit integer or a double in two.
 *
 * Each call returns a status of rheap.h. All of them insist: if there is no room they collect, as
 * the rheap_insist_ calls do. A refused call leaves the array with the elements that it had, unless
 * the call says otherwise. NOT_OBJECT means that the root names no array. In a cycle, collector
 * work follows each call of the heap that they make, within the bounds of rheap.h.
 *
 * Each call pushes up to 4 slots of the scope, and pops them, so that they are nil afterwards. If
 * the owner has too few, the status is NO_ROOT. The roots that you pass must be others.
 *
 * Open the heap with a `biggest` of at least the words of a chunk, which are its fields and 2. The
 * directory is at most twice as large as it needs to be. So for n elements in chunks of c, take the
 * larger of c + 2 and 2 * n / c + 4. When the first chunk or the directory doubles, it is copied
 * field by field: a push then takes time in proportion to its size.
 *
 * These functions are tested, and not proved. What they do to the heap is proved, call by call.
 */
#ifndef RHEAP_ARRAY_H
#define RHEAP_ARRAY_H

#ifdef RHEAP_ON_REFUSAL_H
#error "include rheap_on_refusal.h after rheap_array.h"
#endif

#include "rheap.h"
#include <string.h>

#ifdef __cplusplus
extern "C" {
#define RHEAP_ARRAY_CAST(type, what) static_cast<type>(what)
#else
#define RHEAP_ARRAY_CAST(type, what) ((type)(what))
#endif

/* A whole chunk has an even number of elements from 2 on, and at most so many. */
#define RHEAP_ARRAY_MAX_CHUNK 4094u

/* The fields of an array, of which the first is the program's own. */
enum {
    RHEAP_ARRAY_OWN = 0,
    RHEAP_ARRAY_LENGTH = 1,
    RHEAP_ARRAY_CHUNK = 2,
    RHEAP_ARRAY_DIRECTORY = 3,
    RHEAP_ARRAY_FIELDS = 4
};

/* --- What the calls below are made of --- */

/* Ends a call: makes its slots nil and gives them back. The first status that isn't DONE. */
static inline uint8_t rheap_array_end(rheap_scope *scope, uint32_t mark, uint8_t status) {
    uint8_t popped = rheap_pop_to(scope, mark);
    return status != RHEAP_DONE ? status : popped;
}

/* How many elements the array has, and how many a whole chunk has. NOT_OBJECT where it is none. */
static inline uint8_t rheap_array_read(rheap_scope *scope, rheap_root_id array, uint32_t *length,
                                       uint32_t *chunk) {
    int64_t numbers[2] = {0, 0};
    uint32_t count;
    uint8_t status = rheap_load_ints(scope->heap, scope->owner, array, RHEAP_ARRAY_LENGTH, numbers,
                                     2, &count);
    int is_array = count == 2 && numbers[0] >= 0 && numbers[0] <= UINT32_MAX && numbers[1] >= 2 &&
                   numbers[1] <= RHEAP_ARRAY_MAX_CHUNK && numbers[1] % 2 == 0;
    *length = is_array ? RHEAP_ARRAY_CAST(uint32_t, numbers[0]) : 0;
    *chunk = is_array ? RHEAP_ARRAY_CAST(uint32_t, numbers[1]) : 2;
    if (status == RHEAP_NO_FIELD || (status == RHEAP_DONE && !is_array)) {
        return RHEAP_NOT_OBJECT;
    }
    return status;
}

/* The root `at` takes the chunk that the element is in: the place `index / chunk` of the directory.
   `value` says what that is: nil where there is none. */
static inline uint8_t rheap_array_chunk(rheap_scope *scope, rheap_root_id at, rheap_root_id array,
                                        uint32_t place, rheap_value *value) {
    uint8_t status =
        rheap_load_untold(scope->heap, scope->owner, at, array, RHEAP_ARRAY_DIRECTORY);
    rheap_value nil = {RHEAP_NIL, 0, 0};
    *value = nil;
    return status != RHEAP_DONE ? status
                                : rheap_load(scope->heap, scope->owner, at, at, place, value);
}

/* The root `at` takes the chunk in which `count` elements from `index` on begin. `field` is where
   they begin in it, and `run` how many of them it has. NO_FIELD where the array hasn't all of
   them. */
static inline uint8_t rheap_array_find(rheap_scope *scope, rheap_root_id at, rheap_root_id array,
                                       uint32_t index, size_t count, uint32_t *field,
                                       uint32_t *run) {
    uint32_t length;
    uint32_t chunk;
    uint8_t status = rheap_array_read(scope, array, &length, &chunk);
    *field = index % chunk;
    *run = chunk - *field;
    if (count < *run) {
        *run = RHEAP_ARRAY_CAST(uint32_t, count);
    }
    if (status != RHEAP_DONE || count == 0) {
        return status;
    }
    if (index > length || count > length - index) {
        return RHEAP_NO_FIELD;
    }
    status = rheap_load_untold(scope->heap, scope->owner, at, array, RHEAP_ARRAY_DIRECTORY);
    return status != RHEAP_DONE
               ? status
               : rheap_load_untold(scope->heap, scope->owner, at, at, index / chunk);
}

/* The root `dst` takes a new object of so many fields, raw or not. */
static inline uint8_t rheap_array_alloc(rheap_scope *scope, rheap_root_id dst, uint32_t fields,
                                        int is_raw) {
    return is_raw ? rheap_insist_alloc_raw(scope->heap, scope->owner, dst, fields)
                  : rheap_insist_alloc(scope->heap, scope->owner, dst, fields);
}

/* The fields of `to` take what those of `from` hold, so many of them; `hand` is changed. */
static inline uint8_t rheap_array_copy(rheap_scope *scope, rheap_root_id to, rheap_root_id from,
                                       uint32_t fields, rheap_root_id hand) {
    uint32_t field;
    for (field = 0; field < fields; field++) {
        rheap_value value;
        uint8_t status = rheap_load(scope->heap, scope->owner, hand, from, field, &value);
        if (status == RHEAP_DONE && value.kind != RHEAP_NIL) {
            status = rheap_insist_store_root(scope->heap, scope->owner, to, field, hand);
        }
        if (status != RHEAP_DONE) {
            return status;
        }
    }
    return RHEAP_DONE;
}

/* The same of raw objects, many numbers at once. */
static inline uint8_t rheap_array_copy_raw(rheap_scope *scope, rheap_root_id to,
                                           rheap_root_id from, uint32_t fields) {
    int64_t numbers[64];
    uint32_t field = 0;
    while (field < fields) {
        uint32_t count;
        uint32_t some = fields - field < 64 ? fields - field : 64;
        uint8_t status = rheap_load_ints(scope->heap, scope->owner, from, field, numbers, some,
                                         &count);
        if (status == RHEAP_DONE && count > 0) {
            status = rheap_insist_store_ints(scope->heap, scope->owner, to, field, numbers, count);
        }
        if (status != RHEAP_DONE) {
            return status;
        }
        field += count < some ? count + 1 : count; /* Past a field that is nil, as a new one is. */
    }
    return RHEAP_DONE;
}

/* An object with more fields takes the place of the one that `at` names, and that a field of
   `object` refers to. It is whole before that field takes it, and `at` names it then. */
static inline uint8_t rheap_array_widen(rheap_scope *scope, rheap_root_id object, uint32_t field,
                                        rheap_root_id at, rheap_value was, uint32_t fields) {
    rheap_root_id next = rheap_push(scope);
    rheap_root_id hand = rheap_push(scope);
    uint8_t status = rheap_array_alloc(scope, next, fields, was.kind == RHEAP_RAW);
    if (status == RHEAP_DONE) {
        status = was.kind == RHEAP_RAW ? rheap_array_copy_raw(scope, next, at, was.fields)
                                       : rheap_array_copy(scope, next, at, was.fields, hand);
    }
    if (status == RHEAP_DONE) {
        status = rheap_insist_store_root(scope->heap, scope->owner, object, field, next);
    }
    if (status == RHEAP_DONE) {
        status = rheap_copy(scope->heap, scope->owner, at, next);
    }
    return rheap_array_end(scope, next.slot, status);
}

/* A place of the directory has a chunk of `need` fields, or more. A first chunk that has fewer
   becomes twice as large, or as large as that, up to a whole chunk. Where a chunk is there,
   `is_raw` says whether it is raw; where none is, it is made so. */
static inline uint8_t rheap_array_fill(rheap_scope *scope, rheap_root_id directory, uint32_t place,
                                       uint32_t need, uint32_t chunk, int *is_raw) {
    rheap_root_id at = rheap_push(scope);
    rheap_value value;
    uint8_t status = rheap_load(scope->heap, scope->owner, at, directory, place, &value);
    if (status == RHEAP_DONE && value.kind == RHEAP_NIL) {
        status = rheap_array_alloc(scope, at, need, *is_raw);
        if (status == RHEAP_DONE) {
            status = rheap_insist_store_root(scope->heap, scope->owner, directory, place, at);
        }
    } else if (status == RHEAP_DONE) {
        uint32_t twice = 2 * value.fields + 2 < chunk ? 2 * value.fields + 2 : chunk;
        *is_raw = value.kind == RHEAP_RAW;
        if (value.fields < need) {
            status = rheap_array_widen(scope, directory, place, at, value,
                                       need < twice ? twice : need);
        }
    }
    return rheap_array_end(scope, at.slot, status);
}

/* The places of the directory that so many elements take have chunks. Of these places the first
   `whole` are known to have whole ones. After SPACE_FULL those behind the first place that had none
   have none. */
static inline uint8_t rheap_array_fill_to(rheap_scope *scope, rheap_root_id directory,
                                          uint32_t elements, uint32_t whole, uint32_t chunk,
                                          int is_raw) {
    uint32_t places = elements / chunk + (elements % chunk != 0);
    uint32_t place = whole > 1 ? whole : 1;
    uint32_t made = places; /* The first place that had none. */
    uint8_t status =
        rheap_array_fill(scope, directory, 0, places > 1 ? chunk : elements, chunk, &is_raw);
    for (; status == RHEAP_DONE && place < places; place++) {
        rheap_value value;
        status = rheap_peek(scope->heap, scope->owner, directory, place, &value);
        if (status == RHEAP_DONE && value.kind == RHEAP_NIL && made == places) {
            made = place;
        }
        if (status == RHEAP_DONE) {
            status = rheap_array_fill(scope, directory, place, chunk, chunk, &is_raw);
        }
    }
    while (status == RHEAP_SPACE_FULL && place > made) {
        place--;
        (void)rheap_insist_store_nil(scope->heap, scope->owner, directory, place);
    }
    return status;
}

/* --- Making and growing --- */

/* As rheap_array_make, of a raw array where `is_raw` isn't 0. */
static inline uint8_t rheap_array_make_as(rheap_scope *scope, rheap_root_id dst, uint32_t length,
                                          uint32_t chunk, int is_raw) {
    uint32_t mark = scope->top;
    rheap_root_id array = rheap_push(scope);
    rheap_root_id directory = rheap_push(scope);
    int64_t numbers[2];
    uint32_t places;
    uint8_t status;
    if (chunk < 2 || chunk > RHEAP_ARRAY_MAX_CHUNK || chunk % 2 != 0) {
        return rheap_array_end(scope, mark, RHEAP_FIELDS_RANGE);
    }
    numbers[0] = length;
    numbers[1] = chunk;
    places = length / chunk + (length % chunk != 0);
    status = rheap_insist_alloc(scope->heap, scope->owner, directory, places > 1 ? places : 1);
    if (status == RHEAP_DONE) {
        status = rheap_array_fill_to(scope, directory, length, 0, chunk, is_raw);
    }
    if (status == RHEAP_DONE) {
        status = rheap_insist_alloc(scope->heap, scope->owner, array, RHEAP_ARRAY_FIELDS);
    }
    if (status == RHEAP_DONE) {
        status = rheap_insist_store_ints(scope->heap, scope->owner, array, RHEAP_ARRAY_LENGTH,
                                         numbers, 2);
    }
    if (status == RHEAP_DONE) {
        status = rheap_insist_store_root(scope->heap, scope->owner, array, RHEAP_ARRAY_DIRECTORY,
                                         directory);
    }
    if (status == RHEAP_DONE) {
        status = rheap_copy(scope->heap, scope->owner, dst, array);
    }
    return rheap_array_end(scope, mark, status);
}

/* The root `dst` names a new array of so many elements, all nil, whose whole chunks have `chunk`
   of them. FIELDS_RANGE is answered too where `chunk` is odd, 0 or above RHEAP_ARRAY_MAX_CHUNK,
   and where there would be more than RHEAP_MAX_FIELDS chunks. After a refusal `dst` holds what it
   held.
   DONE, NO_ROOT, NOT_YOURS, FIELDS_RANGE, SPACE_FULL, NUMBERS_SPENT, NOT_OPEN. */
static inline uint8_t rheap_array_make(rheap_scope *scope, rheap_root_id dst, uint32_t length,
                                       uint32_t chunk) {
    return rheap_array_make_as(scope, dst, length, chunk, 0);
}

/* The same of an array whose elements are nil and numbers alone: its chunks are raw. */
static inline uint8_t rheap_array_make_raw(rheap_scope *scope, rheap_root_id dst, uint32_t length,
                                           uint32_t chunk) {
    return rheap_array_make_as(scope, dst, length, chunk, 1);
}

/* `length` reports how many there are. DONE, NO_ROOT, NOT_YOURS, NOT_OBJECT, NOT_OPEN. */
static inline uint8_t rheap_array_length(rheap_scope *scope, rheap_root_id array,
                                         uint32_t *length) {
    uint32_t chunk;
    return rheap_array_read(scope, array, length, &chunk);
}

/* There is room for so many elements, or more; how many there are doesn't change. Chunks that were
   made before SPACE_FULL are let go, so other objects can have their room. A directory and a first
   chunk that were made larger stay so, and are used by the next call that grows.
   DONE, NO_ROOT, NOT_YOURS, NOT_OBJECT, FIELDS_RANGE, SPACE_FULL, NUMBERS_SPENT, NOT_OPEN. */
static inline uint8_t rheap_array_reserve(rheap_scope *scope, rheap_root_id array,
                                          uint32_t elements) {
    uint32_t length;
    uint32_t chunk;
    uint32_t places;
    rheap_value value;
    rheap_root_id directory = rheap_push(scope);
    uint8_t status = rheap_array_read(scope, array, &length, &chunk);
    places = elements / chunk + (elements % chunk != 0);
    if (status == RHEAP_DONE) {
        status = rheap_load(scope->heap, scope->owner, directory, array, RHEAP_ARRAY_DIRECTORY,
                            &value);
    }
    if (status == RHEAP_DONE && value.kind != RHEAP_OBJECT) {
        status = RHEAP_NOT_OBJECT;
    }
    if (status == RHEAP_DONE && places > RHEAP_MAX_FIELDS) {
        status = RHEAP_FIELDS_RANGE;
    }
    if (status == RHEAP_DONE && value.fields < places) {
        uint32_t twice = 2 * value.fields < RHEAP_MAX_FIELDS ? 2 * value.fields : RHEAP_MAX_FIELDS;
        status = rheap_array_widen(scope, array, RHEAP_ARRAY_DIRECTORY, directory, value,
                                   twice > places ? twice : places);
    }
    if (status == RHEAP_DONE) {
        status = rheap_array_fill_to(scope, directory, elements, length / chunk, chunk, 0);
    }
    return rheap_array_end(scope, directory.slot, status);
}

/* The array has `length` elements, if it had fewer: those behind it are nil. Where it has as many
   or more, nothing changes: an array doesn't shrink.
   DONE, NO_ROOT, NOT_YOURS, NOT_OBJECT, FIELDS_RANGE, SPACE_FULL, NUMBERS_SPENT, NOT_OPEN. */
static inline uint8_t rheap_array_grow(rheap_scope *scope, rheap_root_id array, uint32_t length) {
    uint32_t was;
    uint32_t chunk;
    uint8_t status = rheap_array_read(scope, array, &was, &chunk);
    if (status != RHEAP_DONE || length <= was) {
        return status;
    }
    status = rheap_array_reserve(scope, array, length);
    return status != RHEAP_DONE
               ? status
               : rheap_insist_store_int(scope->heap, scope->owner, array, RHEAP_ARRAY_LENGTH,
                                        length);
}

/* --- Elements, counted from 0 --- */

/* The root `dst` takes the value of an element, and so does `value`. After a refusal `dst` holds
   what it held, and `value` is nil.
   DONE, NO_ROOT, NOT_YOURS, NOT_OBJECT, NO_FIELD, NOT_OPEN. */
static inline uint8_t rheap_array_get(rheap_scope *scope, rheap_root_id dst, rheap_root_id array,
                                      uint32_t index, rheap_value *value) {
    rheap_root_id at = rheap_push(scope);
    uint32_t field;
    uint32_t run;
    rheap_value nil = {RHEAP_NIL, 0, 0};
    uint8_t status = rheap_array_find(scope, at, array, index, 1, &field, &run);
    *value = nil;
    if (status == RHEAP_DONE) {
        status = rheap_load(scope->heap, scope->owner, dst, at, field, value);
    }
    return rheap_array_end(scope, at.slot, status);
}

/* The same without a root for the value: `value` alone takes it. */
static inline uint8_t rheap_array_peek(rheap_scope *scope, rheap_root_id array, uint32_t index,
                                       rheap_value *value) {
    rheap_root_id at = rheap_push(scope);
    uint32_t field;
    uint32_t run;
    rheap_value nil = {RHEAP_NIL, 0, 0};
    uint8_t status = rheap_array_find(scope, at, array, index, 1, &field, &run);
    *value = nil;
    if (status == RHEAP_DONE) {
        status = rheap_peek(scope->heap, scope->owner, at, field, value);
    }
    return rheap_array_end(scope, at.slot, status);
}

/* An element becomes nil, takes a whole number, or takes what the root `src` holds.
   DONE, NO_ROOT, NOT_YOURS, NOT_OBJECT, NO_FIELD, RAW_FIELD (of a root alone), INT_RANGE (of a
   number alone), NUMBERS_SPENT, NOT_OPEN. */
static inline uint8_t rheap_array_set_nil(rheap_scope *scope, rheap_root_id array,
                                          uint32_t index) {
    rheap_root_id at = rheap_push(scope);
    uint32_t field;
    uint32_t run;
    uint8_t status = rheap_array_find(scope, at, array, index, 1, &field, &run);
    if (status == RHEAP_DONE) {
        status = rheap_insist_store_nil(scope->heap, scope->owner, at, field);
    }
    return rheap_array_end(scope, at.slot, status);
}
static inline uint8_t rheap_array_set_int(rheap_scope *scope, rheap_root_id array, uint32_t index,
                                          int64_t number) {
    rheap_root_id at = rheap_push(scope);
    uint32_t field;
    uint32_t run;
    uint8_t status = rheap_array_find(scope, at, array, index, 1, &field, &run);
    if (status == RHEAP_DONE) {
        status = rheap_insist_store_int(scope->heap, scope->owner, at, field, number);
    }
    return rheap_array_end(scope, at.slot, status);
}
static inline uint8_t rheap_array_set_root(rheap_scope *scope, rheap_root_id array, uint32_t index,
                                           rheap_root_id src) {
    rheap_root_id at = rheap_push(scope);
    uint32_t field;
    uint32_t run;
    uint8_t status = rheap_array_find(scope, at, array, index, 1, &field, &run);
    if (status == RHEAP_DONE) {
        status = rheap_insist_store_root(scope->heap, scope->owner, at, field, src);
    }
    return rheap_array_end(scope, at.slot, status);
}

/* As the two calls below: a root's value, or a number. */
static inline uint8_t rheap_array_push_as(rheap_scope *scope, rheap_root_id array, int is_root,
                                          rheap_root_id src, int64_t number) {
    rheap_root_id at = rheap_push(scope);
    rheap_value value = {RHEAP_NIL, 0, 0};
    uint32_t length;
    uint32_t chunk;
    uint8_t status = rheap_array_read(scope, array, &length, &chunk);
    uint8_t found = status;
    if (status == RHEAP_DONE) {
        found = rheap_array_chunk(scope, at, array, length / chunk, &value);
        status = found;
        if (found == RHEAP_NO_FIELD) {
            status = RHEAP_DONE;
        }
    }
    if (status == RHEAP_DONE && (found != RHEAP_DONE || value.fields <= length % chunk)) {
        status = rheap_array_end(scope, at.slot, status);
        if (status == RHEAP_DONE) {
            status = rheap_array_reserve(scope, array, length + 1);
        }
        at = rheap_push(scope);
        if (status == RHEAP_DONE) {
            status = rheap_array_chunk(scope, at, array, length / chunk, &value);
        }
    }
    if (status == RHEAP_DONE && is_root) {
        status = rheap_insist_store_root(scope->heap, scope->owner, at, length % chunk, src);
    } else if (status == RHEAP_DONE) {
        status = rheap_insist_store_int(scope->heap, scope->owner, at, length % chunk, number);
    }
    if (status == RHEAP_DONE) {
        status = rheap_insist_store_int(scope->heap, scope->owner, array, RHEAP_ARRAY_LENGTH,
                                        RHEAP_ARRAY_CAST(int64_t, length) + 1);
    }
    return rheap_array_end(scope, at.slot, status);
}

/* The array has one more element at its end: a whole number, or what the root `src` holds. It is
   stored before the array has it, so a refused call leaves the array as long as it was.
   DONE, NO_ROOT, NOT_YOURS, NOT_OBJECT, RAW_FIELD (of a root alone), INT_RANGE (of a number alone),
   FIELDS_RANGE, SPACE_FULL, NUMBERS_SPENT, NOT_OPEN. */
static inline uint8_t rheap_array_push_int(rheap_scope *scope, rheap_root_id array,
                                           int64_t number) {
    return rheap_array_push_as(scope, array, 0, array, number);
}
static inline uint8_t rheap_array_push_root(rheap_scope *scope, rheap_root_id array,
                                            rheap_root_id src) {
    return rheap_array_push_as(scope, array, 1, src, 0);
}

/* --- Elements in a row, from `from` on --- */

/* The elements take whole numbers, as many as `length` says. Each number is looked at before one is
   stored, so after a refusal all elements are as they were, unless it is NUMBERS_SPENT.
   DONE, NO_ROOT, NOT_YOURS, NOT_OBJECT, NO_FIELD, INT_RANGE, NUMBERS_SPENT, NOT_OPEN. */
static inline uint8_t rheap_array_store_ints(rheap_scope *scope, rheap_root_id array, uint32_t from,
                                             const int64_t *numbers, size_t length) {
    rheap_root_id at = rheap_push(scope);
    uint32_t field;
    uint32_t run;
    size_t k;
    uint8_t status = rheap_array_find(scope, at, array, from, length, &field, &run);
    for (k = 0; status == RHEAP_DONE && k < length; k++) {
        if (numbers[k] < RHEAP_MIN_INT || numbers[k] > RHEAP_MAX_INT) {
            status = RHEAP_INT_RANGE;
        }
    }
    while (status == RHEAP_DONE && length > 0) {
        status = rheap_insist_store_ints(scope->heap, scope->owner, at, field, numbers, run);
        from += run;
        numbers += run;
        length -= run;
        if (status == RHEAP_DONE && length > 0) {
            status = rheap_array_find(scope, at, array, from, length, &field, &run);
        }
    }
    return rheap_array_end(scope, at.slot, status);
}

/* The whole numbers of the elements are read: as many as `length` says, or up to the first
   element that holds none. `count` reports how many were read; what is behind them in `numbers`
   stays. Each of `length` elements must be there. DONE, NO_ROOT, NOT_YOURS, NOT_OBJECT, NO_FIELD,
   NOT_OPEN. */
static inline uint8_t rheap_array_load_ints(rheap_scope *scope, rheap_root_id array, uint32_t from,
                                            int64_t *numbers, size_t length, uint32_t *count) {
    rheap_root_id at = rheap_push(scope);
    uint8_t status;
    uint32_t field;
    uint32_t run;
    uint32_t read;
    *count = 0;
    do {
        status = rheap_array_find(scope, at, array, from, length, &field, &run);
        read = 0;
        if (status == RHEAP_DONE && run > 0) {
            status = rheap_load_ints(scope->heap, scope->owner, at, field, numbers, run, &read);
        }
        from += read;
        numbers += read;
        length -= read;
        *count += read;
    } while (status == RHEAP_DONE && length > 0 && read == run);
    return rheap_array_end(scope, at.slot, status);
}

/* --- Bits --- */

/* In an element that is used for bits, what is no number counts as 0. */

/* How many elements so many bytes take: one for seven bytes. */
static inline uint32_t rheap_array_of_bytes(uint32_t bytes) {
    return bytes / 7 + (bytes % 7 != 0);
}

/* How many elements the bytes from `from` on are in, so many of them. */
static inline size_t rheap_array_span(uint32_t from, size_t length) {
    size_t end = from % 7 + (length < SIZE_MAX - 13 ? length : SIZE_MAX - 13);
    return length == 0 ? 0 : end / 7 + (end % 7 != 0);
}

/* Bytes of one element, from the byte `from` on, so many of them, are taken out of it, or put in. */
static inline uint8_t rheap_array_take_part(rheap_scope *scope, rheap_root_id array, uint32_t from,
                                            unsigned char *bytes, uint32_t part) {
    rheap_value value;
    uint32_t shift = from % 7 * 8;
    uint32_t k;
    uint8_t status = rheap_array_peek(scope, array, from / 7, &value);
    for (k = 0; k < part; k++, shift += 8) {
        bytes[k] = RHEAP_ARRAY_CAST(
            unsigned char, RHEAP_ARRAY_CAST(uint64_t, value.number) >> shift & 0xffu);
    }
    return status;
}
static inline uint8_t rheap_array_put_part(rheap_scope *scope, rheap_root_id array, uint32_t from,
                                           const unsigned char *bytes, uint32_t part) {
    rheap_value value;
    uint32_t shift = from % 7 * 8;
    uint64_t bits;
    uint32_t k;
    uint8_t status = rheap_array_peek(scope, array, from / 7, &value);
    bits = RHEAP_ARRAY_CAST(uint64_t, value.number) & UINT64_C(0xffffffffffffff);
    for (k = 0; k < part; k++, shift += 8) {
        bits = (bits & ~(UINT64_C(0xff) << shift)) | RHEAP_ARRAY_CAST(uint64_t, bytes[k]) << shift;
    }
    return status != RHEAP_DONE ? status
                                : rheap_array_set_int(scope, array, from / 7,
                                                      RHEAP_ARRAY_CAST(int64_t, bits));
}

/* How many of so many bytes, from the byte `from` on, are in its element. */
static inline uint32_t rheap_array_part(uint32_t from, size_t length) {
    uint32_t rest = 7 - from % 7;
    return length < rest ? RHEAP_ARRAY_CAST(uint32_t, length) : rest;
}

/* A byte, counted from 0: byte i is in element i / 7, the first one in its lowest eight bits.
   DONE, NO_ROOT, NOT_YOURS, NOT_OBJECT, NO_FIELD, NUMBERS_SPENT (of the second), NOT_OPEN. */
static inline uint8_t rheap_array_get_byte(rheap_scope *scope, rheap_root_id array, uint32_t index,
                                           uint8_t *byte) {
    return rheap_array_take_part(scope, array, index, byte, 1);
}
static inline uint8_t rheap_array_set_byte(rheap_scope *scope, rheap_root_id array, uint32_t index,
                                           uint8_t byte) {
    return rheap_array_put_part(scope, array, index, &byte, 1);
}

/* Bytes in a row, from the byte `from` on, `length` of them; both count bytes. Each of them must be
   there: else it is NO_FIELD, and nothing is stored or read. Only after NUMBERS_SPENT a part may be
   stored. Bytes of an element that the row leaves out stay as they are.
   DONE, NO_ROOT, NOT_YOURS, NOT_OBJECT, NO_FIELD, NUMBERS_SPENT (of the first), NOT_OPEN. */
static inline uint8_t rheap_array_store_bytes(rheap_scope *scope, rheap_root_id array,
                                              uint32_t from, const void *bytes, size_t length) {
    const unsigned char *next = RHEAP_ARRAY_CAST(const unsigned char *, bytes);
    rheap_root_id at = rheap_push(scope);
    uint32_t field;
    uint32_t run;
    uint8_t status = rheap_array_find(scope, at, array, from / 7,
                                      rheap_array_span(from, length), &field, &run);
    while (status == RHEAP_DONE && length > 0) {
        uint32_t done = rheap_array_part(from, length);
        if (done < 7) {
            status = rheap_array_put_part(scope, array, from, next, done);
        } else {
            status = rheap_array_find(scope, at, array, from / 7, length / 7, &field, &run);
            done = 7 * run;
            if (status == RHEAP_DONE) {
                status = rheap_insist_store_text(scope->heap, scope->owner, at, field, next, done);
            }
        }
        from += done;
        next += done;
        length -= done;
    }
    return rheap_array_end(scope, at.slot, status);
}
static inline uint8_t rheap_array_load_bytes(rheap_scope *scope, rheap_root_id array, uint32_t from,
                                             void *bytes, size_t length) {
    unsigned char *next = RHEAP_ARRAY_CAST(unsigned char *, bytes);
    rheap_root_id at = rheap_push(scope);
    uint32_t field;
    uint32_t run;
    uint8_t status = rheap_array_find(scope, at, array, from / 7,
                                      rheap_array_span(from, length), &field, &run);
    while (status == RHEAP_DONE && length > 0) {
        uint32_t done = rheap_array_part(from, length);
        if (done < 7) {
            status = rheap_array_take_part(scope, array, from, next, done);
        } else {
            status = rheap_array_find(scope, at, array, from / 7, length / 7, &field, &run);
            if (status == RHEAP_DONE) {
                status = rheap_load_text(scope->heap, scope->owner, at, field, next, 7 * run,
                                         &done);
            }
            if (status == RHEAP_DONE && done == 0) {
                memset(next, 0, 7); /* The element holds no number. */
                done = 7;
            }
        }
        from += done;
        next += done;
        length -= done;
    }
    return rheap_array_end(scope, at.slot, status);
}

/* The 64-bit integer of a number, counted from 0: integer i is in the elements 2 * i and 2 * i + 1,
   its lower half first. Both are stored or none.
   DONE, NO_ROOT, NOT_YOURS, NOT_OBJECT, NO_FIELD, NUMBERS_SPENT (of those that set), NOT_OPEN. */
static inline uint8_t rheap_array_get_int64(rheap_scope *scope, rheap_root_id array, uint32_t index,
                                            int64_t *number) {
    uint32_t first = index <= UINT32_MAX / 2 - 1 ? 2 * index : UINT32_MAX - 1;
    int64_t halves[2] = {0, 0};
    uint64_t bits;
    uint32_t count;
    uint8_t status = rheap_array_load_ints(scope, array, first, halves, 2, &count);
    if (status == RHEAP_DONE && count == 0) {
        rheap_value value;
        status = rheap_array_peek(scope, array, first + 1, &value);
        halves[1] = value.number;
    }
    bits = (RHEAP_ARRAY_CAST(uint64_t, halves[0]) & UINT32_MAX) |
           RHEAP_ARRAY_CAST(uint64_t, halves[1]) << 32;
    memcpy(number, &bits, sizeof bits);
    return status;
}
static inline uint8_t rheap_array_set_int64(rheap_scope *scope, rheap_root_id array, uint32_t index,
                                            int64_t number) {
    uint32_t first = index <= UINT32_MAX / 2 - 1 ? 2 * index : UINT32_MAX - 1;
    int64_t halves[2];
    uint64_t bits;
    memcpy(&bits, &number, sizeof bits);
    halves[0] = RHEAP_ARRAY_CAST(int64_t, bits & UINT32_MAX);
    halves[1] = RHEAP_ARRAY_CAST(int64_t, bits >> 32);
    return rheap_array_store_ints(scope, array, first, halves, 2);
}

/* The double of a number, in the same two elements. */
static inline uint8_t rheap_array_get_double(rheap_scope *scope, rheap_root_id array,
                                             uint32_t index, double *number) {
    int64_t bits;
    uint8_t status = rheap_array_get_int64(scope, array, index, &bits);
    memcpy(number, &bits, sizeof bits);
    return status;
}
static inline uint8_t rheap_array_set_double(rheap_scope *scope, rheap_root_id array,
                                             uint32_t index, double number) {
    int64_t bits;
    memcpy(&bits, &number, sizeof bits);
    return rheap_array_set_int64(scope, array, index, bits);
}

#undef RHEAP_ARRAY_CAST

#ifdef __cplusplus
}
#endif

#endif
