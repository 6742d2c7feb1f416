/* A hash table on a managed heap: how often each word comes. It grows as words are added, and is an
   object with three arrays of rheap_array.h:
     keys    a text for each word, in the order in which they came
     counts  how often each came
     places  2^n elements, of which an empty one is nil. A word begins its search at its hash; an
             element has the number of its key, counted from 1
   When two thirds of the places are taken, they become twice as many, in a new array. */
#include "rheap_array.h"
#include <stdio.h>
#include <stdlib.h>

/* Slots of owner 1: the table, its arrays, a text that is at hand; the arrays' calls use those
   behind. */
enum { OWNER = 1, TABLE = 0, KEYS, COUNTS, PLACES, TEXT, BEHIND, SLOTS = BEHIND + 4 };
/* The fields of the table. A whole chunk has 254 elements, and so 256 words. */
enum { KEYS_FIELD, COUNTS_FIELD, PLACES_FIELD, TABLE_FIELDS };
enum { CHUNK = 254, FIRST_PLACES = 8, LONGEST = 32 };

static rheap heap = RHEAP_INIT;
static rheap_scope scope = {&heap, OWNER, BEHIND};

static void must(uint8_t status) {
    if (status != RHEAP_DONE) {
        fprintf(stderr, "table: %s\n", rheap_name(status));
        exit(EXIT_FAILURE);
    }
}

static rheap_root_id at(uint32_t slot) {
    return rheap_slot(OWNER, slot);
}

static uint32_t hash_of(const char *word, size_t length) {
    uint32_t hash = 2166136261u;
    size_t k;
    for (k = 0; k < length; k++) {
        hash = (hash ^ (unsigned char)word[k]) * 16777619u;
    }
    return hash;
}

/* --- Texts: a raw object with the length before the bytes --- */

static void make_text(const char *bytes, size_t length) {
    must(rheap_insist_alloc_raw(&heap, OWNER, at(TEXT), 1 + rheap_text_fields(length)));
    must(rheap_insist_store_int(&heap, OWNER, at(TEXT), 0, (int64_t)length));
    must(rheap_insist_store_text(&heap, OWNER, at(TEXT), 1, bytes, length));
}

/* The bytes of a key. */
static size_t read_key(uint32_t number, char *bytes) {
    rheap_value value;
    uint32_t count;
    must(rheap_array_get(&scope, at(TEXT), at(KEYS), number, &value));
    must(rheap_peek(&heap, OWNER, at(TEXT), 0, &value));
    must(rheap_load_text(&heap, OWNER, at(TEXT), 1, bytes, (size_t)value.number, &count));
    return count;
}

/* --- The table --- */

static void make_table(void) {
    rheap_init arrays[TABLE_FIELDS];
    must(rheap_array_make(&scope, at(KEYS), 0, CHUNK));
    must(rheap_array_make_raw(&scope, at(COUNTS), 0, CHUNK));
    must(rheap_array_make_raw(&scope, at(PLACES), FIRST_PLACES, CHUNK));
    arrays[KEYS_FIELD] = rheap_of_root(at(KEYS));
    arrays[COUNTS_FIELD] = rheap_of_root(at(COUNTS));
    arrays[PLACES_FIELD] = rheap_of_root(at(PLACES));
    must(rheap_insist_make(&heap, OWNER, at(TABLE), TABLE_FIELDS, arrays, TABLE_FIELDS));
}

/* Puts the arrays of the table into their slots. */
static void open_table(void) {
    rheap_value value;
    must(rheap_load(&heap, OWNER, at(KEYS), at(TABLE), KEYS_FIELD, &value));
    must(rheap_load(&heap, OWNER, at(COUNTS), at(TABLE), COUNTS_FIELD, &value));
    must(rheap_load(&heap, OWNER, at(PLACES), at(TABLE), PLACES_FIELD, &value));
}

static uint32_t places(void) {
    uint32_t length;
    must(rheap_array_length(&scope, at(PLACES), &length));
    return length;
}

/* The place of a word, or the empty one where it is to be. `number` is that of its key from 1, or
   0. */
static uint32_t find(const char *word, size_t length, int64_t *number) {
    uint32_t mask = places() - 1;
    uint32_t place = hash_of(word, length) & mask;
    for (;; place = (place + 1) & mask) {
        char bytes[LONGEST];
        rheap_value value;
        must(rheap_array_peek(&scope, at(PLACES), place, &value));
        *number = value.number;
        if (value.kind == RHEAP_NIL) {
            return place;
        }
        if (read_key((uint32_t)value.number - 1, bytes) == length &&
            memcmp(bytes, word, length) == 0) {
            return place;
        }
    }
}

/* Twice as many places, in a new array: the table has it once each key has its place there. */
static void spread(uint32_t keys) {
    uint32_t mask = 2 * places() - 1;
    uint32_t key;
    must(rheap_array_make_raw(&scope, at(PLACES), mask + 1, CHUNK));
    for (key = 0; key < keys; key++) {
        char bytes[LONGEST];
        uint32_t place = hash_of(bytes, read_key(key, bytes)) & mask;
        rheap_value value;
        must(rheap_array_peek(&scope, at(PLACES), place, &value));
        while (value.kind != RHEAP_NIL) {
            place = (place + 1) & mask;
            must(rheap_array_peek(&scope, at(PLACES), place, &value));
        }
        must(rheap_array_set_int(&scope, at(PLACES), place, (int64_t)key + 1));
    }
    must(rheap_insist_store_root(&heap, OWNER, at(TABLE), PLACES_FIELD, at(PLACES)));
}

/* The word came once more. */
static void add(const char *word, size_t length) {
    rheap_value value;
    uint32_t keys;
    int64_t number;
    uint32_t place;
    open_table();
    place = find(word, length, &number);
    if (number != 0) {
        must(rheap_array_peek(&scope, at(COUNTS), (uint32_t)number - 1, &value));
        must(rheap_array_set_int(&scope, at(COUNTS), (uint32_t)number - 1, value.number + 1));
        return;
    }
    must(rheap_array_length(&scope, at(KEYS), &keys));
    make_text(word, length);
    must(rheap_array_push_int(&scope, at(COUNTS), 1));
    must(rheap_array_push_root(&scope, at(KEYS), at(TEXT)));
    must(rheap_array_set_int(&scope, at(PLACES), place, (int64_t)keys + 1));
    if (3 * (keys + 1) > 2 * places()) {
        spread(keys + 1);
    }
}

/* --- A program that counts words --- */

/* A word of two syllables or three, the same ones in each run. */
static size_t next_word(char *word) {
    static const char syllables[] = "bademokarinosutilepufoga";
    static uint32_t state = 7;
    size_t length;
    state = state * 1664525u + 1013904223u;
    for (length = 0; length < 4 + 2 * (size_t)(state >> 31); length += 2) {
        memcpy(word + length, syllables + 2 * ((state >> (4 * length / 2 + 8)) % 12), 2);
    }
    return length;
}

int main(void) {
    char word[LONGEST];
    rheap_value value;
    rheap_stats stats;
    uint32_t keys;
    uint32_t key;
    int64_t sum = 0;
    uint32_t n;
    must(rheap_open_sized(&heap, 20000, CHUNK + 2, 32, 2, SLOTS));
    make_table();
    for (n = 0; n < 30000; n++) {
        add(word, next_word(word));
    }
    must(rheap_array_length(&scope, at(KEYS), &keys));
    printf("%u words, %u places\n", (unsigned)keys, (unsigned)places());
    for (key = 0; key < keys; key++) {
        must(rheap_array_peek(&scope, at(COUNTS), key, &value));
        sum += value.number;
        if (value.number > 180) {
            printf("%.*s came %ld times\n", (int)read_key(key, word), word, (long)value.number);
        }
    }
    must(rheap_stat(&heap, &stats));
    printf("%ld in all, and the heap has %s\n", (long)sum, stats.flips > 0 ? "collected" : "not");
    must(rheap_close(&heap));
    return 0;
}
