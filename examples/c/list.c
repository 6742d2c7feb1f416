/* A list of numbers on a managed heap: a cell has a number and the rest of the list. */
#include "rheap.h"
#include <stdio.h>
#include <stdlib.h>

/* Ends the program where a call wasn't done, and says why. */
static void must(uint8_t status) {
    if (status != RHEAP_DONE) {
        fprintf(stderr, "list: %s\n", rheap_name(status));
        exit(EXIT_FAILURE);
    }
}

int main(void) {
    rheap heap = RHEAP_INIT;
    rheap_root_id list = rheap_slot(1, 0);
    rheap_root_id cell = rheap_slot(1, 1);
    rheap_init pair[2];
    rheap_value value;
    rheap_stats stats;
    int64_t n;

    /* 4,096 words, cells of 4 words, ratio 32; owner 1 has two slots. */
    must(rheap_open_sized(&heap, 4096, 4, 32, 2, 2));

    /* Puts 100,000 cells before the list, which is let go every 500: ten are left. */
    for (n = 0; n < 100000; n++) {
        if (n % 500 == 490) {
            must(rheap_drop(&heap, 1, list));
        }
        pair[0] = rheap_of_int(n);
        pair[1] = rheap_of_root(list);
        must(rheap_make(&heap, 1, list, 2, pair, 2));
    }

    /* Walks the list by a second root. */
    must(rheap_copy(&heap, 1, cell, list));
    must(rheap_root(&heap, cell, &value));
    while (value.kind == RHEAP_OBJECT) {
        must(rheap_peek(&heap, 1, cell, 0, &value));
        printf("%ld\n", (long)value.number);
        must(rheap_load(&heap, 1, cell, cell, 1, &value));
    }
    must(rheap_collect(&heap));
    must(rheap_stat(&heap, &stats));
    printf("%lu words\n", (unsigned long)stats.used);
    must(rheap_close(&heap));
    return 0;
}
