/* One call of rheap.h, many times: what bench/c_calls counts the instructions of. Of a text it is the
   bytes of one, by one call or by a store of each field.
   c_calls CALL TIMES. */
#include "rheap.h"
#include <stdio.h>
#include <stdlib.h>
#include <string.h>

/* Ends the program where a call wasn't done. */
static void must(uint8_t status) {
    if (status != RHEAP_DONE) {
        fprintf(stderr, "c_calls: %s\n", rheap_name(status));
        exit(EXIT_FAILURE);
    }
}

/* The bytes of a text, and their fields. */
#define BYTES 1000
#define FIELDS 143

/* A store of each field, of bytes that are packed before. */
static uint8_t store_each(rheap *heap, rheap_root_id text, const int64_t *packed) {
    uint8_t status = RHEAP_DONE;
    uint32_t field;
    for (field = 0; field < FIELDS && status == RHEAP_DONE; field++) {
        status = rheap_store_int(heap, 1, text, field, packed[field]);
    }
    return status;
}

/* The number of up to seven bytes. */
static int64_t packed_bytes(const unsigned char *bytes, size_t length) {
    int64_t number = 0;
    size_t byte;
    for (byte = 0; byte < length && byte < 7; byte++) {
        number |= (int64_t)bytes[byte] << 8 * byte;
    }
    return number;
}

/* A store of each field, of bytes that are packed one by one. */
static uint8_t pack_each(rheap *heap, rheap_root_id text, const unsigned char *bytes) {
    uint8_t status = RHEAP_DONE;
    uint32_t field;
    for (field = 0; field < FIELDS && status == RHEAP_DONE; field++) {
        status = rheap_store_int(heap, 1, text, field,
                                 packed_bytes(bytes + 7 * field, BYTES - 7 * field));
    }
    return status;
}

/* A peek at each field, whose bytes are unpacked one by one. */
static uint8_t unpack_each(rheap *heap, rheap_root_id text, unsigned char *bytes) {
    uint8_t status = RHEAP_DONE;
    rheap_value value;
    size_t at = 0;
    uint32_t field;
    for (field = 0; field < FIELDS && status == RHEAP_DONE; field++) {
        int shift;
        status = rheap_peek(heap, 1, text, field, &value);
        for (shift = 0; shift < 56 && at < BYTES; shift += 8) {
            bytes[at++] = (unsigned char)(value.number >> shift & 0xff);
        }
    }
    return status;
}

/* A ticket for an object, which is freed. */
static uint8_t watch_and_unwatch(rheap *heap, rheap_root_id root) {
    uint64_t ticket;
    uint8_t status = rheap_watch(heap, 1, root, &ticket);
    return status == RHEAP_DONE ? rheap_unwatch(heap, ticket) : status;
}

/* A pair of a number and a root, and a frame of three of each, by one call. */
static uint8_t make_pair(rheap *heap, rheap_root_id dst, int64_t number, rheap_root_id root) {
    rheap_init values[2];
    values[0] = rheap_of_int(number);
    values[1] = rheap_of_root(root);
    return rheap_insist_make(heap, 1, dst, 2, values, 2);
}

static uint8_t make_frame(rheap *heap, rheap_root_id dst, int64_t number, rheap_root_id root) {
    rheap_init values[6];
    int at;
    for (at = 0; at < 6; at += 2) {
        values[at] = rheap_of_int(number);
        values[at + 1] = rheap_of_root(root);
    }
    return rheap_insist_make(heap, 1, dst, 6, values, 6);
}

/* The same by a call for the object and one for each field. */
static uint8_t fill_object(rheap *heap, rheap_root_id dst, int64_t number, rheap_root_id root,
                           uint32_t fields) {
    uint8_t status = rheap_insist_alloc(heap, 1, dst, fields);
    uint32_t at;
    for (at = 0; at < fields && status == RHEAP_DONE; at++) {
        status = at % 2 == 0 ? rheap_insist_store_int(heap, 1, dst, at, number)
                             : rheap_insist_store_root(heap, 1, dst, at, root);
    }
    return status;
}

/* If this is the call that is asked for, makes it so many times. */
#define ON(name, call)                                                                             \
    if (strcmp(argv[1], name) == 0) {                                                              \
        for (n = 0; n < times; n++) {                                                              \
            must(call);                                                                            \
        }                                                                                          \
    }

int main(int argc, char **argv) {
    rheap heap = RHEAP_INIT;
    rheap_root_id object = rheap_slot(1, 0);
    rheap_root_id other = rheap_slot(1, 1);
    rheap_root_id free_slot = rheap_slot(1, 2);
    rheap_value value;
    rheap_words words;
    unsigned char bytes[BYTES];
    int64_t packed[FIELDS];
    rheap_root_id text = rheap_slot(1, 3);
    rheap_root_id row = rheap_slot(1, 4);
    rheap_value values[4];
    /* Two roots, a number and nil. */
    static const rheap_init mixed[4] = {{RHEAP_OBJECT, {1, 0}, 0},
                                        {RHEAP_OBJECT, {1, 1}, 0},
                                        {RHEAP_NUMBER, {0, 0}, 7},
                                        {RHEAP_NIL, {0, 0}, 0}};
    /* A field of the object, and one of the object there. */
    static const uint32_t path[3] = {1, 1, 0};
    uint64_t ticket;
    size_t done;
    uint8_t is;
    uint32_t count;
    uint8_t same;
    long times;
    long n;
    if (argc != 3) {
        return 2;
    }
    times = atol(argv[2]);

    /* So large that no cycle begins. */
    must(rheap_open_sized(&heap, 2000000, 8, 32, 2, 8));
    for (n = 0; n < BYTES; n++) {
        bytes[n] = (unsigned char)(n * 7);
    }
    for (n = 0; n < FIELDS; n++) {
        packed[n] = packed_bytes(bytes + 7 * n, (size_t)(BYTES - 7 * n));
    }
    must(rheap_alloc_raw(&heap, 1, text, FIELDS));
    must(rheap_store_ints(&heap, 1, text, 0, packed, FIELDS));
    must(rheap_alloc(&heap, 1, object, 4));
    must(rheap_alloc(&heap, 1, other, 4));
    must(rheap_store_int(&heap, 1, object, 0, 7));
    must(rheap_store_root(&heap, 1, object, 1, other));
    must(rheap_store_root(&heap, 1, other, 1, object));
    must(rheap_watch_room(&heap, 8));
    /* The same in slots of owner 0. */
    must(rheap_alloc(&heap, 0, rheap_slot(0, 0), 4));
    must(rheap_alloc(&heap, 0, rheap_slot(0, 1), 4));
    must(rheap_store_int(&heap, 0, rheap_slot(0, 0), 0, 7));
    must(rheap_store_root(&heap, 0, rheap_slot(0, 0), 1, rheap_slot(0, 1)));
    ON("alloc", rheap_alloc(&heap, 1, free_slot, 4))
    ON("store_root", rheap_store_root(&heap, 1, object, 1, other))
    ON("store_int", rheap_store_int(&heap, 1, object, 0, n))
    ON("store_nil", rheap_store_nil(&heap, 1, object, 0))
    ON("load_root", rheap_load(&heap, 1, free_slot, object, 1, &value))
    ON("load_int", rheap_load(&heap, 1, free_slot, object, 0, &value))
    ON("load_nil", rheap_load(&heap, 1, free_slot, object, 2, &value))
    ON("load_untold", rheap_load_untold(&heap, 1, free_slot, object, 1))
    ON("copy", rheap_copy(&heap, 1, free_slot, other))
    ON("drop", rheap_drop(&heap, 1, free_slot))
    ON("same", rheap_same(&heap, 1, object, other, &same))
    ON("root", rheap_root(&heap, object, &value))
    ON("field", rheap_field(&heap, object, 0, &value))
    ON("peek", rheap_peek(&heap, 1, object, 0, &value))
    ON("room", rheap_room(&heap, 4, &words))
    ON("insist_alloc", rheap_insist_alloc(&heap, 1, free_slot, 4))
    ON("insist_store_root", rheap_insist_store_root(&heap, 1, object, 1, other))
    ON("insist_store_int", rheap_insist_store_int(&heap, 1, object, 0, n))
    ON("make_pair", make_pair(&heap, free_slot, n, other))
    ON("make_frame", make_frame(&heap, free_slot, n, other))
    ON("fill_pair", fill_object(&heap, free_slot, n, other, 2))
    ON("fill_frame", fill_object(&heap, free_slot, n, other, 6))
    ON("load_roots", rheap_load_roots(&heap, 1, row, object, 0, values, 4, &done))
    ON("store_roots", rheap_store_roots(&heap, 1, other, 0, row, 4, &done))
    ON("insist_store_roots", rheap_insist_store_roots(&heap, 1, other, 0, row, 4, &done))
    ON("load_roots_untold", rheap_load_roots_untold(&heap, 1, row, object, 0, 4, &done))
    ON("store_row", rheap_store_row(&heap, 1, other, 0, mixed, 4, &done))
    ON("insist_store_row", rheap_insist_store_row(&heap, 1, other, 0, mixed, 4, &done))
    ON("drop_roots", rheap_drop_roots(&heap, 1, row, 4, &done))
    ON("load_path", rheap_load_path(&heap, 1, free_slot, object, path, 3, &done, &value))
    ON("watch_and_unwatch", watch_and_unwatch(&heap, object))
    ON("next_gone", rheap_next_gone(&heap, &ticket, &is))
    ON("resize", rheap_resize(&heap, 2000000 - (uint32_t)(n % 2), 1000000, 8))
    ON("resize_sized", rheap_resize_sized(&heap, 2000000 - (uint32_t)(n % 2), 8))
    ON("store_ints", rheap_store_ints(&heap, 1, text, 0, packed, FIELDS))
    ON("store_each", store_each(&heap, text, packed))
    ON("store_text", rheap_store_text(&heap, 1, text, 0, bytes, BYTES))
    ON("pack_each", pack_each(&heap, text, bytes))
    ON("load_ints", rheap_load_ints(&heap, 1, text, 0, packed, FIELDS, &count))
    ON("load_text", rheap_load_text(&heap, 1, text, 0, bytes, BYTES, &count))
    ON("unpack_each", unpack_each(&heap, text, bytes))
    ON("shared_alloc", rheap_shared_alloc(&heap, 2, 4))
    ON("shared_store_root", rheap_shared_store_root(&heap, 0, 1, 1))
    ON("shared_store_int", rheap_shared_store_int(&heap, 0, 0, n))
    ON("shared_store_nil", rheap_shared_store_nil(&heap, 0, 0))
    ON("shared_load_root", rheap_shared_load(&heap, 2, 0, 1, &value))
    ON("shared_load_int", rheap_shared_load(&heap, 2, 0, 0, &value))
    ON("shared_load_untold", rheap_shared_load_untold(&heap, 2, 0, 1))
    ON("shared_copy", rheap_shared_copy(&heap, 2, 1))
    ON("shared_drop", rheap_shared_drop(&heap, 2))
    ON("shared_peek", rheap_shared_peek(&heap, 0, 0, &value))
    ON("shared_insist_alloc", rheap_shared_insist_alloc(&heap, 2, 4))
    ON("shared_insist_store_root", rheap_shared_insist_store_root(&heap, 0, 1, 1))
    ON("shared_insist_store_int", rheap_shared_insist_store_int(&heap, 0, 0, n))
    must(rheap_close(&heap));
    return 0;
}
