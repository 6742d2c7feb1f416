/* Files that are closed once the program has lost them. An object stands for each open file, and a
   ticket watches the object: the file is in a table by the ticket, and is closed when the heap tells
   that the object is gone. Writes and reads temporary files, and prints how many were closed so. */
#include "rheap.h"
#include <stdio.h>
#include <stdlib.h>

/* So many files may be open at once. */
#define FILES 8

/* The file of each ticket, where one is open. */
static FILE *files[FILES];
static unsigned closed = 0;

/* Ends the program where a call wasn't done, and says why. */
static void must(uint8_t status) {
    if (status != RHEAP_DONE) {
        fprintf(stderr, "files: %s\n", rheap_name(status));
        exit(EXIT_FAILURE);
    }
}

/* Closes each file whose object is gone. */
static void close_lost(rheap *heap) {
    uint64_t ticket;
    uint8_t is;
    must(rheap_next_gone(heap, &ticket, &is));
    while (is) {
        fclose(files[ticket]);
        files[ticket] = NULL;
        closed++;
        must(rheap_next_gone(heap, &ticket, &is));
    }
}

/* Opens a file: the root names its object, which has the ticket in field 0. Where no ticket is free,
   it collects, and closes what is lost. RHEAP_WATCHES_FULL where that is none. */
static uint8_t open_file(rheap *heap, rheap_root_id root) {
    uint64_t ticket;
    uint8_t status;
    must(rheap_insist_alloc_raw(heap, 1, root, 1));
    close_lost(heap);
    status = rheap_watch(heap, 1, root, &ticket);
    if (status == RHEAP_WATCHES_FULL) {
        must(rheap_collect(heap));
        must(rheap_collect(heap));
        close_lost(heap);
        status = rheap_watch(heap, 1, root, &ticket);
    }
    if (status != RHEAP_DONE) {
        return status;
    }
    files[ticket] = tmpfile();
    if (files[ticket] == NULL) {
        perror("files");
        exit(EXIT_FAILURE);
    }
    must(rheap_insist_store_int(heap, 1, root, 0, (int64_t)ticket));
    return RHEAP_DONE;
}

/* The ticket of the file for which the object stands that the root names. */
static uint64_t ticket_of(rheap *heap, rheap_root_id root) {
    rheap_value value;
    must(rheap_peek(heap, 1, root, 0, &value));
    return (uint64_t)value.number;
}

/* Closes a file by hand. Its ticket is freed, so that it isn't told later. */
static void close_file(rheap *heap, rheap_root_id root) {
    uint64_t ticket = ticket_of(heap, root);
    must(rheap_unwatch(heap, ticket));
    fclose(files[ticket]);
    files[ticket] = NULL;
    must(rheap_drop(heap, 1, root));
}

int main(void) {
    rheap heap = RHEAP_INIT;
    rheap_root_id kept = rheap_slot(1, 0);
    rheap_root_id file = rheap_slot(1, 1);
    rheap_root_id all = rheap_slot(1, 2);
    char line[32] = "";
    uint32_t n;

    must(rheap_open_sized(&heap, 4096, FILES + 4, 32, 2, 3));
    must(rheap_watch_room(&heap, FILES));

    /* One is kept, and read at the end. */
    must(open_file(&heap, kept));
    fputs("kept\n", files[ticket_of(&heap, kept)]);

    /* A thousand are opened, one after the other, and lost. */
    for (n = 0; n < 1000; n++) {
        must(open_file(&heap, file));
        fputs("lost\n", files[ticket_of(&heap, file)]);
    }
    /* The last of these is closed by hand. */
    close_file(&heap, file);
    must(rheap_collect(&heap));
    must(rheap_collect(&heap));
    close_lost(&heap);
    printf("%u of 1000 were closed as they were lost\n", closed);

    /* As many as there are tickets are kept in fields of an object: no ticket is free then. */
    must(rheap_alloc(&heap, 1, all, FILES));
    for (n = 0; open_file(&heap, file) == RHEAP_DONE; n++) {
        must(rheap_store_root(&heap, 1, all, n, file));
    }
    must(rheap_drop(&heap, 1, file));
    printf("%u more are open\n", n);
    must(rheap_drop(&heap, 1, all));
    must(rheap_collect(&heap));
    must(rheap_collect(&heap));
    close_lost(&heap);
    printf("%u were closed\n", closed);

    rewind(files[ticket_of(&heap, kept)]);
    if (fgets(line, sizeof line, files[ticket_of(&heap, kept)]) != NULL) {
        fputs(line, stdout);
    }
    close_file(&heap, kept);
    must(rheap_close(&heap));
    return 0;
}
