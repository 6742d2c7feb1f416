/* A hash table by identity on a managed heap, and files that are closed once the program has lost
   them. Objects move, so none is hashed by its address. Its identity is a ticket of rheap_watch,
   which it keeps in a field, and a file is found by the ticket too. The table maps objects to
   values, without keeping the objects alive. It has two arrays of rheap_array.h, of 2^n elements:
     keys    the identity of each object that is in the table; a free place is nil
     values  the value of each, at the same place
   Once an object is gone its ticket is told, and may be given to another object from then on. So
   the program takes it out of the table there and then, and closes its file. */
#include "rheap_array.h"
#include <stdio.h>
#include <stdlib.h>

/* Slots of owner 1; the calls of arrays use those behind. */
enum { OWNER = 1, KEYS = 0, VALUES, OLD_KEYS, OLD_VALUES, HAND, OBJECT, NAME, RING, BEHIND };
enum { SLOTS = BEHIND + 4 };
/* The fields of an object that stands for a file, and those of its name, which is a raw object. */
enum { IDENTITY, FILE_FIELDS, LENGTH = 0, BYTES };
/* A whole chunk has 62 elements, and so 64 words. */
enum { CHUNK = 62, FIRST_PLACES = 8, TICKETS = 400, OPENED = 1000, KEPT = 150 };

static rheap heap = RHEAP_INIT;
static rheap_scope scope = {&heap, OWNER, BEHIND};
static uint32_t entries = 0;
/* The file of each ticket, where one is open. */
static FILE *files[TICKETS];
static unsigned closed = 0;

static void must(uint8_t status) {
    if (status != RHEAP_DONE) {
        fprintf(stderr, "identity: %s\n", rheap_name(status));
        exit(EXIT_FAILURE);
    }
}

static rheap_root_id at(uint32_t slot) {
    return rheap_slot(OWNER, slot);
}

/* --- The table --- */

static void make_arrays(uint32_t places) {
    must(rheap_array_make_raw(&scope, at(KEYS), places, CHUNK));
    must(rheap_array_make(&scope, at(VALUES), places, CHUNK));
}

/* How many places there are, less 1: all of its bits are 1. */
static uint32_t mask_of_places(void) {
    uint32_t places;
    must(rheap_array_length(&scope, at(KEYS), &places));
    return places - 1;
}

/* The place where the search for an identity begins. */
static uint32_t first_place(int64_t identity, uint32_t mask) {
    return ((uint32_t)identity * 2654435769u >> 16) & mask;
}

/* The place of an identity, or the free one that ends the search. `is` says which. */
static uint32_t find(int64_t identity, int *is) {
    uint32_t mask = mask_of_places();
    uint32_t place = first_place(identity, mask);
    for (;; place = (place + 1) & mask) {
        rheap_value key;
        must(rheap_array_peek(&scope, at(KEYS), place, &key));
        *is = key.kind == RHEAP_NUMBER && key.number == identity;
        if (*is || key.kind == RHEAP_NIL) {
            return place;
        }
    }
}

/* The place takes an identity and the value that the root HAND holds. */
static void put_at(uint32_t place, int64_t identity) {
    must(rheap_array_set_int(&scope, at(KEYS), place, identity));
    must(rheap_array_set_root(&scope, at(VALUES), place, at(HAND)));
}

/* Twice as many places, in new arrays. */
static void spread(void) {
    uint32_t old = mask_of_places() + 1;
    uint32_t place;
    must(rheap_copy(&heap, OWNER, at(OLD_KEYS), at(KEYS)));
    must(rheap_copy(&heap, OWNER, at(OLD_VALUES), at(VALUES)));
    make_arrays(2 * old);
    for (place = 0; place < old; place++) {
        rheap_value key;
        rheap_value value;
        int is;
        must(rheap_array_peek(&scope, at(OLD_KEYS), place, &key));
        if (key.kind == RHEAP_NUMBER) {
            must(rheap_array_get(&scope, at(HAND), at(OLD_VALUES), place, &value));
            put_at(find(key.number, &is), key.number);
        }
    }
    must(rheap_drop(&heap, OWNER, at(OLD_KEYS)));
    must(rheap_drop(&heap, OWNER, at(OLD_VALUES)));
}

/* The identity is mapped to what the root `src` holds. */
static void put(int64_t identity, rheap_root_id src) {
    int is;
    uint32_t place = find(identity, &is);
    if (!is && 3 * ++entries > 2 * mask_of_places()) {
        spread();
        place = find(identity, &is);
    }
    must(rheap_copy(&heap, OWNER, at(HAND), src));
    put_at(place, identity);
}

/* The root HAND takes the value of an identity, and nil where it has none. */
static void get(int64_t identity) {
    rheap_value value;
    int is;
    uint32_t place = find(identity, &is);
    must(is ? rheap_array_get(&scope, at(HAND), at(VALUES), place, &value)
            : rheap_drop(&heap, OWNER, at(HAND)));
}

/* Takes an identity out. Those behind it, up to the next free place, move up if they may. */
static void take_out(int64_t identity) {
    uint32_t mask = mask_of_places();
    int is;
    uint32_t hole = find(identity, &is);
    uint32_t place = hole;
    while (is) {
        rheap_value key;
        rheap_value value;
        place = (place + 1) & mask;
        must(rheap_array_peek(&scope, at(KEYS), place, &key));
        if (key.kind == RHEAP_NIL) {
            must(rheap_array_set_nil(&scope, at(KEYS), hole));
            must(rheap_array_set_nil(&scope, at(VALUES), hole));
            entries--;
            return;
        }
        if (((place - first_place(key.number, mask)) & mask) >= ((place - hole) & mask)) {
            must(rheap_array_get(&scope, at(HAND), at(VALUES), place, &value));
            put_at(hole, key.number);
            hole = place;
        }
    }
}

/* --- Files --- */

/* Closes the file of each object that is gone, and takes the object out of the table. */
static void close_lost(void) {
    uint64_t ticket;
    uint8_t is;
    must(rheap_next_gone(&heap, &ticket, &is));
    while (is) {
        fclose(files[ticket]);
        files[ticket] = NULL;
        closed++;
        take_out((int64_t)ticket);
        must(rheap_next_gone(&heap, &ticket, &is));
    }
}

/* A ticket for the object that the root names. If none is free, it collects: so the number of tickets
   also bounds how many lost files are open. */
static uint64_t watch(rheap_root_id root) {
    uint64_t ticket;
    uint8_t status = rheap_watch(&heap, OWNER, root, &ticket);
    if (status == RHEAP_WATCHES_FULL) {
        must(rheap_collect(&heap));
        must(rheap_collect(&heap));
        close_lost();
        status = rheap_watch(&heap, OWNER, root, &ticket);
    }
    must(status);
    return ticket;
}

/* Opens a file: OBJECT names its object, which the table maps to its name. */
static void open_file(const char *name) {
    size_t length = strlen(name);
    uint64_t ticket;
    close_lost();
    must(rheap_insist_alloc(&heap, OWNER, at(OBJECT), FILE_FIELDS));
    ticket = watch(at(OBJECT));
    must(rheap_insist_store_int(&heap, OWNER, at(OBJECT), IDENTITY, (int64_t)ticket));
    files[ticket] = tmpfile();
    if (files[ticket] == NULL) {
        perror("identity");
        exit(EXIT_FAILURE);
    }
    must(rheap_insist_alloc_raw(&heap, OWNER, at(NAME), BYTES + rheap_text_fields(length)));
    must(rheap_insist_store_int(&heap, OWNER, at(NAME), LENGTH, (int64_t)length));
    must(rheap_insist_store_text(&heap, OWNER, at(NAME), BYTES, name, length));
    put((int64_t)ticket, at(NAME));
}

/* Whether the table maps the object that OBJECT names to this name, and its file is open. */
static int is_named(const char *name) {
    char bytes[16];
    rheap_value value;
    uint32_t count;
    int64_t identity;
    must(rheap_peek(&heap, OWNER, at(OBJECT), IDENTITY, &value));
    identity = value.number;
    get(identity);
    must(rheap_peek(&heap, OWNER, at(HAND), LENGTH, &value));
    must(rheap_load_text(&heap, OWNER, at(HAND), BYTES, bytes, (size_t)value.number, &count));
    return files[identity] != NULL && count == strlen(name) && memcmp(bytes, name, count) == 0;
}

int main(void) {
    char name[16];
    rheap_value value;
    rheap_stats stats;
    unsigned n;
    unsigned right = 0;
    unsigned most = 0;
    must(rheap_open_sized(&heap, 8192, CHUNK + 2, 32, 2, SLOTS));
    must(rheap_watch_room(&heap, TICKETS));
    make_arrays(FIRST_PLACES);
    must(rheap_array_make(&scope, at(RING), KEPT, CHUNK));

    /* The last 150 are kept in an array, and each one that it lets go is lost. */
    for (n = 0; n < OPENED; n++) {
        sprintf(name, "file %u", n);
        open_file(name);
        must(rheap_array_set_root(&scope, at(RING), n % KEPT, at(OBJECT)));
        most = entries > most ? entries : most;
    }
    printf("%d files were opened, at most %u at once\n", OPENED, most);
    for (n = OPENED - KEPT; n < OPENED; n++) {
        sprintf(name, "file %u", n);
        must(rheap_array_get(&scope, at(OBJECT), at(RING), n % KEPT, &value));
        right += is_named(name) ? 1 : 0;
    }
    must(rheap_stat(&heap, &stats));
    printf("%u of %d that are kept have their names, and the heap has %s\n", right, KEPT,
           stats.flips > 0 ? "collected" : "not");

    /* All are let go. */
    must(rheap_drop(&heap, OWNER, at(RING)));
    must(rheap_drop(&heap, OWNER, at(OBJECT)));
    must(rheap_collect(&heap));
    must(rheap_collect(&heap));
    close_lost();
    printf("%u were closed, and %u are in the table\n", closed, (unsigned)entries);
    must(rheap_close(&heap));
    return 0;
}
