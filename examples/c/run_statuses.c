/* Each status of whole traces but 3, for which memory must be refused, and what the buffer and its
   count have then: a program in C over the static library rheap_c_traces. Prints nothing where all is
   as it should be. */
#include <stdint.h>
#include <stdio.h>
#include <stdlib.h>
#include <string.h>

#include "rheap.h"

/* The most bytes that a trace may have. */
#define MAX_BYTES ((size_t)16777216)

#define ROOM ((size_t)128)

static int wrong = 0;

typedef struct {
    const char *name;
    int is_paced;
    uint32_t mark;
    const char *trace;
    uint8_t status; /* where the buffer has room */
    const char *text;
} row;

#define OBJECT "heap 16 8 8 2 2\n1 alloc 1.0 1\n"
#define STORES OBJECT "1 store 1.0 0 5\n1 store 1.0 0 6\n"

static const row rows[] = {
    {"a run", 0, 0, OBJECT, 0, "object 1\ntotal commands 1 refused 0 flips 0 rootwords 0\n"},
    {"no line", 0, 0, "", 1, ""},
    {"a fault", 0, 0, "heap 16 8 8 2 2\n1 fly 1.0\n", 1, ""},
    {"sizes that make no heap", 0, 0, "heap 7 8 8 2 2\n", 1, ""},
    {"a cycle where fewer words than the mark are free", 1, 14, STORES, 0,
     "object 1\ndone\ndone\ntotal commands 3 refused 0 flips 1 rootwords 1\n"},
    {"none where as many are", 1, 13, STORES, 0,
     "object 1\ndone\ndone\ntotal commands 3 refused 0 flips 0 rootwords 0\n"},
    {"no pace without a mark", 1, 0, STORES, 1, ""},
    {"a line of a cycle", 1, 14, OBJECT "begin\n", 1, ""},
    {"sizes that make no paced heap", 1, 14, "heap 16 65 8 2 2\n", 1, ""},
};

static void expect(const char *name, const char *what, size_t got, size_t due) {
    if (got != due) {
        printf("%s: %s: %zu, not %zu\n", name, what, got, due);
        wrong = 1;
    }
}

static uint8_t run(const row *r, const uint8_t *trace, size_t trace_length, uint8_t *answers,
                   size_t room, size_t *length) {
    return r->is_paced ? rheap_run_paced(trace, trace_length, r->mark, answers, room, length)
                       : rheap_run(trace, trace_length, answers, room, length);
}

/* The row's trace into a buffer with so much room, of which the text should be delivered or not. */
static void play(const row *r, size_t room, uint8_t status) {
    uint8_t answers[ROOM];
    uint8_t due[ROOM];
    size_t length = 77;
    memset(answers, 0x5a, sizeof answers);
    memset(due, 0x5a, sizeof due);
    if (status == 0) {
        memcpy(due, r->text, strlen(r->text));
    }
    expect(r->name, "status",
           run(r, (const uint8_t *)r->trace, strlen(r->trace), answers, room, &length), status);
    expect(r->name, "length", length, strlen(r->text));
    expect(r->name, "bytes that differ", memcmp(answers, due, sizeof due) != 0, 0);
}

/* A trace that is too long by a byte. */
static void play_too_long(const row *r) {
    uint8_t answers[ROOM];
    size_t length = 77;
    uint8_t *trace = (uint8_t *)malloc(MAX_BYTES + 1);
    if (trace == NULL) {
        printf("no memory for a trace\n");
        wrong = 1;
        return;
    }
    memset(trace, '9', MAX_BYTES + 1);
    memset(answers, 0x5a, sizeof answers);
    expect("too long", "status", run(r, trace, MAX_BYTES + 1, answers, sizeof answers, &length), 1);
    expect("too long", "length", length, 0);
    expect("too long", "first byte", answers[0], 0x5a);
    free(trace);
}

int main(void) {
    for (size_t i = 0; i < sizeof rows / sizeof rows[0]; i++) {
        const row *r = &rows[i];
        play(r, ROOM, r->status);
        if (r->status == 0) {
            play(r, strlen(r->text), 0);
            play(r, strlen(r->text) - 1, 5);
            play(r, 0, 5);
        }
    }
    play_too_long(&rows[0]);
    play_too_long(&rows[4]);
    return wrong;
}
