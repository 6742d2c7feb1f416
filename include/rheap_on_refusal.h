/*
 * rheap_on_refusal.h: a handler for refused calls, for programs in C99 and C++11, by GCC or Clang.
 * It is a header alone: beside the library there is nothing to link. With it a program writes
 *
 *     rheap_alloc(&heap, 1, cell, 2);
 *     rheap_store_int(&heap, 1, cell, 0, n);
 *
 * without a look at the status of each call, and says once what is done where one is refused:
 *
 *     static void refused(void *data, uint8_t status, const char *call) {
 *         fprintf(stderr, "%s: %s\n", call, rheap_name(status));
 *         longjmp(*(jmp_buf *)data, 1);
 *     }
 *     ..
 *     rheap_on_refusal(refused, &prompt);
 *
 * Include it after rheap.h and rheap_array.h, in each file whose calls are to be handled. There the
 * name of each call on a handle or a scope is a macro: it makes the call, and where the status
 * isn't DONE it calls the handler. If that returns, or there is none, the call returns its status.
 *
 * A status that your program looks at itself isn't handled if the name stands in parentheses, as
 * any macro is passed over in C:
 *
 *     if ((rheap_watch)(&heap, 1, root, &ticket) == RHEAP_WATCHES_FULL) ..
 *     (void)(rheap_dump)(&heap, NULL, 0, &length);     asks for the length: TOO_LONG
 *
 * Each thread has a handler of its own, and none at first. A refused call has changed nothing, with
 * the exceptions that rheap.h names, and a handler is called after the call has ended. So it may
 * make calls of the heap, and may leave by longjmp. After that give back the slots that were pushed
 * by rheap_pop_to, as after any error.
 *
 * It costs a comparison for each call. It is tested, and not proved.
 */
#ifndef RHEAP_ON_REFUSAL_H
#define RHEAP_ON_REFUSAL_H

#include "rheap.h"

#ifdef __cplusplus
extern "C" {
#endif

/* What is done where a call is refused: `call` is its name. */
typedef void (*rheap_refusal_handler)(void *data, uint8_t status, const char *call);

/* A handler with the data that it is given. The handler of none is null. */
typedef struct rheap_refusals {
    rheap_refusal_handler handler;
    void *data;
} rheap_refusals;

/* That of the thread. All files of a program have one and the same. */
__attribute__((weak)) __thread rheap_refusals rheap_refusals_here;

/* Sets the handler of the thread, and returns the one before it. A null pointer is no handler. */
static inline rheap_refusals rheap_on_refusal(rheap_refusal_handler handler, void *data) {
    rheap_refusals before = rheap_refusals_here;
    rheap_refusals_here.handler = handler;
    rheap_refusals_here.data = data;
    return before;
}

/* The status, after the handler was called where it isn't DONE. */
static inline uint8_t rheap_handled(uint8_t status, const char *call) {
    rheap_refusals here;
    if (status == RHEAP_DONE) {
        return status;
    }
    here = rheap_refusals_here;
    if (here.handler) {
        here.handler(here.data, status, call);
    }
    return status;
}

#ifdef __cplusplus
}
#endif

#define RHEAP_HANDLED(call, ...) rheap_handled(call(__VA_ARGS__), #call)

/* The calls of rheap.h, in its order. Whole traces have statuses of another kind. */
#define rheap_open(...) RHEAP_HANDLED(rheap_open, __VA_ARGS__)
#define rheap_open_sized(...) RHEAP_HANDLED(rheap_open_sized, __VA_ARGS__)
#define rheap_resize(...) RHEAP_HANDLED(rheap_resize, __VA_ARGS__)
#define rheap_resize_sized(...) RHEAP_HANDLED(rheap_resize_sized, __VA_ARGS__)
#define rheap_open_growing(...) RHEAP_HANDLED(rheap_open_growing, __VA_ARGS__)
#define rheap_open_growth(...) RHEAP_HANDLED(rheap_open_growth, __VA_ARGS__)
#define rheap_close(...) RHEAP_HANDLED(rheap_close, __VA_ARGS__)
#define rheap_alloc(...) RHEAP_HANDLED(rheap_alloc, __VA_ARGS__)
#define rheap_alloc_raw(...) RHEAP_HANDLED(rheap_alloc_raw, __VA_ARGS__)
#define rheap_make(...) RHEAP_HANDLED(rheap_make, __VA_ARGS__)
#define rheap_make_raw(...) RHEAP_HANDLED(rheap_make_raw, __VA_ARGS__)
#define rheap_load(...) RHEAP_HANDLED(rheap_load, __VA_ARGS__)
#define rheap_load_untold(...) RHEAP_HANDLED(rheap_load_untold, __VA_ARGS__)
#define rheap_store_nil(...) RHEAP_HANDLED(rheap_store_nil, __VA_ARGS__)
#define rheap_store_int(...) RHEAP_HANDLED(rheap_store_int, __VA_ARGS__)
#define rheap_store_root(...) RHEAP_HANDLED(rheap_store_root, __VA_ARGS__)
#define rheap_store_ints(...) RHEAP_HANDLED(rheap_store_ints, __VA_ARGS__)
#define rheap_load_ints(...) RHEAP_HANDLED(rheap_load_ints, __VA_ARGS__)
#define rheap_store_text(...) RHEAP_HANDLED(rheap_store_text, __VA_ARGS__)
#define rheap_load_text(...) RHEAP_HANDLED(rheap_load_text, __VA_ARGS__)
#define rheap_load_roots(...) RHEAP_HANDLED(rheap_load_roots, __VA_ARGS__)
#define rheap_load_roots_untold(...) RHEAP_HANDLED(rheap_load_roots_untold, __VA_ARGS__)
#define rheap_store_row(...) RHEAP_HANDLED(rheap_store_row, __VA_ARGS__)
#define rheap_store_roots(...) RHEAP_HANDLED(rheap_store_roots, __VA_ARGS__)
#define rheap_drop_roots(...) RHEAP_HANDLED(rheap_drop_roots, __VA_ARGS__)
#define rheap_load_path(...) RHEAP_HANDLED(rheap_load_path, __VA_ARGS__)
#define rheap_copy(...) RHEAP_HANDLED(rheap_copy, __VA_ARGS__)
#define rheap_drop(...) RHEAP_HANDLED(rheap_drop, __VA_ARGS__)
#define rheap_same(...) RHEAP_HANDLED(rheap_same, __VA_ARGS__)
#define rheap_insist_alloc(...) RHEAP_HANDLED(rheap_insist_alloc, __VA_ARGS__)
#define rheap_insist_alloc_raw(...) RHEAP_HANDLED(rheap_insist_alloc_raw, __VA_ARGS__)
#define rheap_insist_make(...) RHEAP_HANDLED(rheap_insist_make, __VA_ARGS__)
#define rheap_insist_make_raw(...) RHEAP_HANDLED(rheap_insist_make_raw, __VA_ARGS__)
#define rheap_insist_store_nil(...) RHEAP_HANDLED(rheap_insist_store_nil, __VA_ARGS__)
#define rheap_insist_store_int(...) RHEAP_HANDLED(rheap_insist_store_int, __VA_ARGS__)
#define rheap_insist_store_root(...) RHEAP_HANDLED(rheap_insist_store_root, __VA_ARGS__)
#define rheap_insist_store_ints(...) RHEAP_HANDLED(rheap_insist_store_ints, __VA_ARGS__)
#define rheap_insist_store_text(...) RHEAP_HANDLED(rheap_insist_store_text, __VA_ARGS__)
#define rheap_insist_store_roots(...) RHEAP_HANDLED(rheap_insist_store_roots, __VA_ARGS__)
#define rheap_insist_store_row(...) RHEAP_HANDLED(rheap_insist_store_row, __VA_ARGS__)
#define rheap_shared_alloc(...) RHEAP_HANDLED(rheap_shared_alloc, __VA_ARGS__)
#define rheap_shared_alloc_raw(...) RHEAP_HANDLED(rheap_shared_alloc_raw, __VA_ARGS__)
#define rheap_shared_load(...) RHEAP_HANDLED(rheap_shared_load, __VA_ARGS__)
#define rheap_shared_load_untold(...) RHEAP_HANDLED(rheap_shared_load_untold, __VA_ARGS__)
#define rheap_shared_peek(...) RHEAP_HANDLED(rheap_shared_peek, __VA_ARGS__)
#define rheap_shared_store_nil(...) RHEAP_HANDLED(rheap_shared_store_nil, __VA_ARGS__)
#define rheap_shared_store_int(...) RHEAP_HANDLED(rheap_shared_store_int, __VA_ARGS__)
#define rheap_shared_store_root(...) RHEAP_HANDLED(rheap_shared_store_root, __VA_ARGS__)
#define rheap_shared_copy(...) RHEAP_HANDLED(rheap_shared_copy, __VA_ARGS__)
#define rheap_shared_drop(...) RHEAP_HANDLED(rheap_shared_drop, __VA_ARGS__)
#define rheap_shared_insist_alloc(...) RHEAP_HANDLED(rheap_shared_insist_alloc, __VA_ARGS__)
#define rheap_shared_insist_alloc_raw(...) RHEAP_HANDLED(rheap_shared_insist_alloc_raw, __VA_ARGS__)
#define rheap_shared_insist_store_nil(...) RHEAP_HANDLED(rheap_shared_insist_store_nil, __VA_ARGS__)
#define rheap_shared_insist_store_int(...) RHEAP_HANDLED(rheap_shared_insist_store_int, __VA_ARGS__)
#define rheap_shared_insist_store_root(...) RHEAP_HANDLED(rheap_shared_insist_store_root, __VA_ARGS__)
#define rheap_root(...) RHEAP_HANDLED(rheap_root, __VA_ARGS__)
#define rheap_fields(...) RHEAP_HANDLED(rheap_fields, __VA_ARGS__)
#define rheap_field(...) RHEAP_HANDLED(rheap_field, __VA_ARGS__)
#define rheap_peek(...) RHEAP_HANDLED(rheap_peek, __VA_ARGS__)
#define rheap_room(...) RHEAP_HANDLED(rheap_room, __VA_ARGS__)
#define rheap_short(...) RHEAP_HANDLED(rheap_short, __VA_ARGS__)
#define rheap_watch_room(...) RHEAP_HANDLED(rheap_watch_room, __VA_ARGS__)
#define rheap_watch(...) RHEAP_HANDLED(rheap_watch, __VA_ARGS__)
#define rheap_unwatch(...) RHEAP_HANDLED(rheap_unwatch, __VA_ARGS__)
#define rheap_next_gone(...) RHEAP_HANDLED(rheap_next_gone, __VA_ARGS__)
#define rheap_collect(...) RHEAP_HANDLED(rheap_collect, __VA_ARGS__)
#define rheap_increment(...) RHEAP_HANDLED(rheap_increment, __VA_ARGS__)
#define rheap_stat(...) RHEAP_HANDLED(rheap_stat, __VA_ARGS__)
#define rheap_last_did(...) RHEAP_HANDLED(rheap_last_did, __VA_ARGS__)
#define rheap_pace(...) RHEAP_HANDLED(rheap_pace, __VA_ARGS__)
#define rheap_cycle(...) RHEAP_HANDLED(rheap_cycle, __VA_ARGS__)
#define rheap_release(...) RHEAP_HANDLED(rheap_release, __VA_ARGS__)
#define rheap_dump_into(...) RHEAP_HANDLED(rheap_dump_into, __VA_ARGS__)
#define rheap_draw_into(...) RHEAP_HANDLED(rheap_draw_into, __VA_ARGS__)
#define rheap_dump(...) RHEAP_HANDLED(rheap_dump, __VA_ARGS__)
#define rheap_draw(...) RHEAP_HANDLED(rheap_draw, __VA_ARGS__)
#define rheap_pop_to(...) RHEAP_HANDLED(rheap_pop_to, __VA_ARGS__)

/* Those of rheap_array.h, where it was included before. */
#ifdef RHEAP_ARRAY_H
#define rheap_array_make(...) RHEAP_HANDLED(rheap_array_make, __VA_ARGS__)
#define rheap_array_make_raw(...) RHEAP_HANDLED(rheap_array_make_raw, __VA_ARGS__)
#define rheap_array_length(...) RHEAP_HANDLED(rheap_array_length, __VA_ARGS__)
#define rheap_array_reserve(...) RHEAP_HANDLED(rheap_array_reserve, __VA_ARGS__)
#define rheap_array_grow(...) RHEAP_HANDLED(rheap_array_grow, __VA_ARGS__)
#define rheap_array_get(...) RHEAP_HANDLED(rheap_array_get, __VA_ARGS__)
#define rheap_array_peek(...) RHEAP_HANDLED(rheap_array_peek, __VA_ARGS__)
#define rheap_array_set_nil(...) RHEAP_HANDLED(rheap_array_set_nil, __VA_ARGS__)
#define rheap_array_set_int(...) RHEAP_HANDLED(rheap_array_set_int, __VA_ARGS__)
#define rheap_array_set_root(...) RHEAP_HANDLED(rheap_array_set_root, __VA_ARGS__)
#define rheap_array_push_int(...) RHEAP_HANDLED(rheap_array_push_int, __VA_ARGS__)
#define rheap_array_push_root(...) RHEAP_HANDLED(rheap_array_push_root, __VA_ARGS__)
#define rheap_array_store_ints(...) RHEAP_HANDLED(rheap_array_store_ints, __VA_ARGS__)
#define rheap_array_load_ints(...) RHEAP_HANDLED(rheap_array_load_ints, __VA_ARGS__)
#define rheap_array_get_byte(...) RHEAP_HANDLED(rheap_array_get_byte, __VA_ARGS__)
#define rheap_array_set_byte(...) RHEAP_HANDLED(rheap_array_set_byte, __VA_ARGS__)
#define rheap_array_store_bytes(...) RHEAP_HANDLED(rheap_array_store_bytes, __VA_ARGS__)
#define rheap_array_load_bytes(...) RHEAP_HANDLED(rheap_array_load_bytes, __VA_ARGS__)
#define rheap_array_get_int64(...) RHEAP_HANDLED(rheap_array_get_int64, __VA_ARGS__)
#define rheap_array_set_int64(...) RHEAP_HANDLED(rheap_array_set_int64, __VA_ARGS__)
#define rheap_array_get_double(...) RHEAP_HANDLED(rheap_array_get_double, __VA_ARGS__)
#define rheap_array_set_double(...) RHEAP_HANDLED(rheap_array_set_double, __VA_ARGS__)
#endif

#endif
