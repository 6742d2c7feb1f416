/* What a heap looks like: its dump, its picture, and the numbers of its cycles; and memory that it gives
   back. Random commands are played by calls, on a heap of fixed sizes and on one that grows, and as a
   trace by rheap_run: the dumps are to be the same. The numbers of each cycle are compared with those
   that the heap itself tells. Prints nothing where all is as it should be. Memory is refused in
   memory.c. */
#include "rheap.h"
#include <inttypes.h>
#include <stdio.h>
#include <string.h>

#define OWNERS 2
#define SLOTS 4
#define COMMANDS 1500
/* Bytes for a text, and how many are looked at behind it; how many commands are played between two
   looks at it. */
#define ROOM 262144
#define BEHIND 100
#define STRIDE 50

static int wrong = 0;

static void expect(const char *call, int line, uint8_t got, uint8_t due) {
    if (got != due && wrong++ < 20) {
        printf("line %d: %s: %s, not %s\n", line, call, rheap_name(got), rheap_name(due));
    }
}

static void expect_number(const char *what, int line, uint64_t got, uint64_t due) {
    if (got != due && wrong++ < 20) {
        printf("line %d: %s: %" PRIu64 ", not %" PRIu64 "\n", line, what, got, due);
    }
}

static void expect_that(const char *what, int line, int holds) {
    if (!holds && wrong++ < 20) {
        printf("line %d: not so: %s\n", line, what);
    }
}

#define IS(call, status) expect(#call, __LINE__, call, RHEAP_##status)
#define EQUALS(what, number) expect_number(#what, __LINE__, (uint64_t)(what), (uint64_t)(number))
#define HOLDS(what) expect_that(#what, __LINE__, what)

static char text[ROOM];
static char other[ROOM];

/* --- Texts --- */

typedef uint8_t (*telling)(rheap *heap, char *buffer, size_t capacity, size_t *length);

static int is_all(const char *bytes, size_t from, size_t to, char byte) {
    while (from < to && bytes[from] == byte) {
        from++;
    }
    return from >= to;
}

/* The text in `into`, with a zero behind it. It is told whole, or not at all: with too little room, at
   no address, and with more than it needs. */
static size_t told(rheap *heap, telling tell, char *into) {
    size_t length = 7;
    size_t again = 7;
    size_t room;
    rheap_stats before;
    rheap_stats after;
    memset(&before, 0, sizeof before);
    memset(&after, 0, sizeof after);
    IS(rheap_stat(heap, &before), DONE);
    IS(tell(heap, NULL, 0, &length), TOO_LONG);
    HOLDS(length > 0 && length + BEHIND < ROOM);
    room = length + BEHIND;
    IS(tell(heap, NULL, 1000, &again), TOO_LONG);
    EQUALS(again, length);
    memset(into, '#', room);
    again = 7;
    IS(tell(heap, into, length - 1, &again), TOO_LONG);
    EQUALS(again, length);
    HOLDS(is_all(into, 0, room, '#'));
    again = 7;
    IS(tell(heap, into, 0, &again), TOO_LONG);
    EQUALS(again, length);
    HOLDS(is_all(into, 0, room, '#'));
    again = 7;
    IS(tell(heap, into, length, &again), DONE);
    EQUALS(again, length);
    HOLDS(is_all(into, length, room, '#') && into[length - 1] == '\n');
    again = 7;
    memset(into, '#', room);
    IS(tell(heap, into, room, &again), DONE);
    EQUALS(again, length);
    HOLDS(is_all(into, length, room, '#') && into[length - 1] == '\n');
    IS(rheap_stat(heap, &after), DONE);
    HOLDS(memcmp(&before, &after, sizeof before) == 0);
    into[length] = 0;
    return length;
}

/* The same by the calls that the library exports. */
static uint8_t dump_into(rheap *heap, char *buffer, size_t capacity, size_t *length) {
    char none = 0;
    return buffer ? rheap_dump_into(heap, buffer, capacity, length)
                  : rheap_dump_into(heap, &none, 0, length);
}

/* The objects of a dump. */
static uint64_t objects_of(const char *dump) {
    unsigned long long count = 0;
    const char *line = strstr(dump, "\nobjects ");
    HOLDS(line != NULL && sscanf(line, "\nobjects %llu", &count) == 1);
    return count;
}

/* The picture is one element, the same each time, and another once the heap has changed. */
static void pictures(rheap *heap) {
    size_t length;
    length = told(heap, rheap_draw, text);
    HOLDS(strstr(text, "<svg") != NULL && strcmp(text + length - 7, "</svg>\n") == 0);
    EQUALS(told(heap, rheap_draw, other), length);
    HOLDS(memcmp(text, other, length) == 0);
    IS(rheap_alloc(heap, 1, rheap_slot(1, 3), 1), DONE);
    length = told(heap, rheap_draw, other);
    HOLDS(strcmp(text, other) != 0);
    IS(rheap_store_int(heap, 1, rheap_slot(1, 3), 0, 4711), DONE);
    told(heap, rheap_draw, text);
    HOLDS(strcmp(text, other) != 0 && strstr(text, "4711") != NULL && strstr(other, "4711") == NULL);
    IS(rheap_drop(heap, 1, rheap_slot(1, 3)), DONE);
}

/* --- Cycles --- */

/* The numbers of a cycle as the heap's own calls tell them, call by call. */
typedef struct watcher {
    rheap_cycle_reader reader;
    rheap_stats last;
    uint64_t calls;
    uint64_t ended;
    /* Of the cycle that is on, where its begin was seen. */
    int is_on;
    uint64_t epoch;
    uint64_t began;
    uint64_t used;
    uint64_t number;
    uint64_t most;
    /* The cycles that were told, and those of them that began and ended at one call. */
    uint64_t told;
    uint64_t at_once;
    uint32_t ratio;
} watcher;

static void begin(watcher *w, rheap *heap, uint32_t ratio) {
    const rheap_cycle_reader none = RHEAP_CYCLE_READER_INIT;
    rheap_ended_cycle cycle;
    memset(w, 0, sizeof *w);
    w->reader = none;
    w->ratio = ratio;
    memset(&cycle, 1, sizeof cycle);
    IS(rheap_cycle(heap, &w->reader, &cycle), DONE);
    HOLDS(cycle.is == 0 && cycle.number == 0 && cycle.words == 0 && cycle.flipped == 0);
    IS(rheap_stat(heap, &w->last), DONE);
}

static uint64_t more(uint64_t m, uint64_t n) { return m > n ? m : n; }

/* Compares the numbers of a cycle that ended at this call. */
static void compare(watcher *w, rheap *heap, const rheap_stats *now, const rheap_ended_cycle *cycle) {
    int is_at_once = !w->last.cycle;
    uint64_t used = is_at_once ? w->last.used
                               : w->last.used + (now->granted - w->last.granted) / w->ratio;
    rheap_did did;
    IS(rheap_last_did(heap, &did), DONE);
    EQUALS(cycle->number, w->ended);
    EQUALS(cycle->epoch, is_at_once ? w->last.epoch : w->epoch);
    EQUALS(cycle->began, is_at_once ? w->calls : w->began);
    EQUALS(cycle->ended, w->calls);
    EQUALS(cycle->used, is_at_once ? w->last.used : w->used);
    EQUALS(cycle->live, now->used);
    EQUALS(cycle->live, did.live_words);
    EQUALS(cycle->freed, used - now->used);
    EQUALS(cycle->granted, now->granted);
    EQUALS(cycle->idle, now->idle);
    EQUALS(cycle->spent, now->spent);
    EQUALS(cycle->most, is_at_once ? now->spent : more(w->most, now->spent - w->last.spent));
    EQUALS(cycle->logged, is_at_once ? 0 : now->number - w->number);
    EQUALS(cycle->words, now->used + now->free);
    EQUALS(cycle->flipped, 1);
    /* What a cycle keeps that began and ended at one call is what the roots reach. */
    told(heap, rheap_dump, other);
    HOLDS(cycle->objects >= objects_of(other));
    if (is_at_once) {
        EQUALS(cycle->objects, objects_of(other));
        w->at_once++;
    }
    w->told++;
}

/* Reads the heap after a call of one increment or collection at most. */
static void called(watcher *w, rheap *heap) {
    rheap_stats now;
    rheap_ended_cycle cycle;
    int is_ended;
    memset(&cycle, 1, sizeof cycle);
    IS(rheap_cycle(heap, &w->reader, &cycle), DONE);
    IS(rheap_stat(heap, &now), DONE);
    w->calls++;
    is_ended = now.flips != w->last.flips;
    w->ended += is_ended ? now.flips - w->last.flips : 0;
    EQUALS(cycle.is, is_ended && (w->is_on || !w->last.cycle));
    if (cycle.is) {
        compare(w, heap, &now, &cycle);
    } else {
        const rheap_ended_cycle none = {0, 0, 0, 0, 0, 0, 0, 0, 0, 0, 0, 0, 0, 0, 0, 0};
        HOLDS(memcmp(&cycle, &none, offsetof(rheap_ended_cycle, is)) == 0);
    }
    if (!now.cycle) {
        w->is_on = 0;
    } else if (w->last.cycle && !is_ended) {
        w->most = more(w->most, now.spent - w->last.spent);
    } else {
        w->is_on = 1;
        w->epoch = now.epoch;
        w->began = w->calls;
        w->used = now.used;
        w->number = now.number;
        w->most = now.spent;
    }
    EQUALS(w->reader.reads, w->calls);
    EQUALS(w->reader.ended, w->ended);
    EQUALS(w->reader.running, w->is_on);
    EQUALS(w->reader.begun, 1);
    w->last = now;
}

/* --- Commands --- */

static uint32_t state = 1;

static uint32_t below(uint32_t n) {
    state = state * 1664525u + 1013904223u;
    return (state >> 8) % n;
}

static rheap_root_id a_root(uint32_t owner) {
    return rheap_slot(below(3) == 0 ? 0 : owner, below(SLOTS));
}

/* The trace of the commands that were played, and where the next line goes. */
static char trace[COMMANDS * 40 + 100];
static size_t end = 0;

/* Plays one random command, and writes its line. */
static void play(rheap *heap) {
    uint32_t owner = below(OWNERS);
    rheap_root_id a = a_root(owner);
    rheap_root_id b = a_root(owner);
    uint32_t field = below(4);
    int32_t number = (int32_t)below(2000) - 1000;
    char *line = trace + end;
    rheap_value value;
    uint8_t status;
    switch (below(10)) {
    case 0:
    case 1:
    case 2:
        status = rheap_alloc(heap, owner, a, field);
        sprintf(line, "%" PRIu32 " alloc %" PRIu32 ".%" PRIu32 " %" PRIu32 "\n", owner, a.owner, a.slot, field);
        break;
    case 3:
        status = rheap_alloc_raw(heap, owner, a, field);
        sprintf(line, "%" PRIu32 " raw %" PRIu32 ".%" PRIu32 " %" PRIu32 "\n", owner, a.owner, a.slot, field);
        break;
    case 4:
        status = rheap_store_int(heap, owner, a, field, number);
        sprintf(line, "%" PRIu32 " store %" PRIu32 ".%" PRIu32 " %" PRIu32 " %" PRId32 "\n", owner, a.owner,
                a.slot, field, number);
        break;
    case 5:
    case 6:
    case 7:
        status = rheap_store_root(heap, owner, a, field, b);
        sprintf(line, "%" PRIu32 " store %" PRIu32 ".%" PRIu32 " %" PRIu32 " %" PRIu32 ".%" PRIu32 "\n", owner,
                a.owner, a.slot, field, b.owner, b.slot);
        break;
    case 8:
        status = rheap_load(heap, owner, a, b, field, &value);
        sprintf(line, "%" PRIu32 " load %" PRIu32 ".%" PRIu32 " %" PRIu32 ".%" PRIu32 " %" PRIu32 "\n", owner,
                a.owner, a.slot, b.owner, b.slot, field);
        break;
    default:
        status = rheap_drop(heap, owner, a);
        sprintf(line, "%" PRIu32 " drop %" PRIu32 ".%" PRIu32 "\n", owner, a.owner, a.slot);
        break;
    }
    /* What found no room counts as never given. */
    if (status != RHEAP_SPACE_FULL && status != RHEAP_LOG_FULL) {
        end += strlen(line);
    }
}

/* The dump of the heap is what `rheap run` answers to the same commands and the line `dump`. */
static void compare_dump(rheap *heap) {
    static char answers[ROOM];
    size_t length;
    size_t bytes = told(heap, rheap_dump, text);
    char *from;
    char *to;
    EQUALS(told(heap, dump_into, other), bytes);
    HOLDS(strcmp(text, other) == 0);
    strcpy(trace + end, "dump\n");
    EQUALS(rheap_run((const uint8_t *)trace, end + 5, (uint8_t *)answers, ROOM - 1, &length), RHEAP_RUN_DONE);
    answers[length] = 0;
    from = strstr(answers, "rheap 2\n");
    to = from == NULL ? NULL : strstr(from, "\nend\n");
    HOLDS(to != NULL);
    if (to != NULL) {
        to[5] = 0;
        HOLDS(strcmp(text, from) == 0);
    }
}

/* Memory is given back outside a cycle, and not in one. Nothing that can be read changes. */
static void release(rheap *heap, watcher *w) {
    rheap_stats before;
    rheap_stats after;
    memset(&before, 0, sizeof before);
    memset(&after, 0, sizeof after);
    told(heap, rheap_dump, text);
    IS(rheap_stat(heap, &before), DONE);
    if (before.cycle) {
        IS(rheap_release(heap), CYCLE_ON);
    } else {
        IS(rheap_release(heap), DONE);
    }
    IS(rheap_stat(heap, &after), DONE);
    HOLDS(memcmp(&before, &after, sizeof before) == 0);
    told(heap, rheap_dump, other);
    HOLDS(strcmp(text, other) == 0);
    called(w, heap);
}

/* Plays random commands. Between them it collects, or does an increment, and gives memory back. Where
   `is_cyclic` isn't 0, cycles begin and end by themselves too. */
static void commands(rheap *heap, uint32_t ratio, uint32_t seed, int is_cyclic) {
    watcher w;
    uint64_t released[2] = {0, 0};
    int n;
    state = seed;
    end = (size_t)sprintf(trace, "heap 20000 1 64 %d %d\n", OWNERS, SLOTS);
    begin(&w, heap, ratio);
    for (n = 0; n < COMMANDS; n++) {
        play(heap);
        if (n % STRIDE == 0) {
            compare_dump(heap);
        }
        called(&w, heap);
        if (n % (is_cyclic ? 397 : 97) == 96) {
            IS(rheap_collect(heap), DONE);
            called(&w, heap);
        } else if (n % 7 == 6) {
            IS(rheap_increment(heap), DONE);
            called(&w, heap);
        }
        if (n % 13 == 12 || (w.last.cycle && n % 3 == 0)) {
            released[w.last.cycle]++;
            release(heap, &w);
        }
    }
    compare_dump(heap);
    HOLDS(w.at_once > 0 && released[0] > 0);
    if (is_cyclic) {
        HOLDS(w.told > w.at_once && released[1] > 0);
    }
    EQUALS(w.told, w.ended);
}

/* --- Statuses --- */

static void not_open(void) {
    rheap heap = RHEAP_INIT;
    rheap_cycle_reader reader = RHEAP_CYCLE_READER_INIT;
    rheap_cycle_reader as_it_was = reader;
    rheap_ended_cycle cycle;
    const rheap_ended_cycle none = {0, 0, 0, 0, 0, 0, 0, 0, 0, 0, 0, 0, 0, 0, 0, 0};
    size_t length = 7;
    memset(text, '#', 100);
    IS(rheap_dump(&heap, text, 100, &length), NOT_OPEN);
    EQUALS(length, 0);
    length = 7;
    IS(rheap_draw(&heap, text, 100, &length), NOT_OPEN);
    EQUALS(length, 0);
    length = 7;
    IS(rheap_dump(&heap, NULL, 0, &length), NOT_OPEN);
    EQUALS(length, 0);
    HOLDS(is_all(text, 0, 100, '#'));
    reader.reads = as_it_was.reads = 3;
    reader.begun = as_it_was.begun = 1;
    memset(&cycle, 1, sizeof cycle);
    IS(rheap_cycle(&heap, &reader, &cycle), NOT_OPEN);
    HOLDS(memcmp(&reader, &as_it_was, offsetof(rheap_cycle_reader, begun)) == 0 && reader.begun == 1);
    HOLDS(memcmp(&cycle, &none, offsetof(rheap_ended_cycle, is)) == 0 && cycle.is == 0);
    IS(rheap_release(&heap), NOT_OPEN);
    HOLDS(strcmp(rheap_name(22), "TOO_LONG") == 0 && strcmp(rheap_name(23), "CYCLE_ON") == 0);
}

/* Two cycles since the last reading aren't told, and count. */
static void late_reader(rheap *heap) {
    rheap_cycle_reader reader = RHEAP_CYCLE_READER_INIT;
    rheap_ended_cycle cycle;
    IS(rheap_collect(heap), DONE);
    IS(rheap_cycle(heap, &reader, &cycle), DONE);
    IS(rheap_collect(heap), DONE);
    IS(rheap_collect(heap), DONE);
    IS(rheap_cycle(heap, &reader, &cycle), DONE);
    EQUALS(cycle.is, 0);
    IS(rheap_collect(heap), DONE);
    IS(rheap_cycle(heap, &reader, &cycle), DONE);
    EQUALS(cycle.is, 1);
    EQUALS(cycle.number, 3);
    EQUALS(cycle.began, 2);
    EQUALS(cycle.ended, 2);
}

int main(void) {
    rheap heap = RHEAP_INIT;
    rheap_growth growth = {200, 20000, 200, 5, 32, OWNERS, SLOTS};
    not_open();
    IS(rheap_open(&heap, 8000, 1000, 5, 32, OWNERS, SLOTS), DONE);
    commands(&heap, 32, 1, 0);
    pictures(&heap);
    late_reader(&heap);
    IS(rheap_close(&heap), DONE);
    IS(rheap_open_sized(&heap, 300, 5, 8, OWNERS, SLOTS), DONE);
    commands(&heap, 8, 2, 1);
    pictures(&heap);
    IS(rheap_close(&heap), DONE);
    IS(rheap_open_growth(&heap, &growth), DONE);
    commands(&heap, 32, 4, 1);
    pictures(&heap);
    late_reader(&heap);
    IS(rheap_close(&heap), DONE);
    return wrong != 0;
}
