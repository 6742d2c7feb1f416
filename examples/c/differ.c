/* Plays commands of a trace by the calls of rheap.h, and prints what `rheap run` prints of them:
   examples/c/differ compares the two. Beside each command it looks whether the readers agree with
   it, and reports on standard error where they don't.

   Lines that one call stands for are played by it:
     - stores of numbers to one field after the other by rheap_store_ints, or by rheap_store_text where
       the numbers are those of bytes; where that is refused, they are calls of their own;
     - other stores to one field after the other by rheap_store_row;
     - loads into one slot after the other, stores of one after the other, and drops by rheap_load_roots,
       rheap_load_roots_untold, rheap_store_roots or rheap_drop_roots;
     - loads into one slot, each from what the one before it loaded, by rheap_load_path. What these loads
       answer is found by loads of their own into a spare slot;
     - an object that is made in the spare slot, stores to its first fields, a copy of it and the drop of
       that slot by rheap_make; where it is refused, they are calls of their own, and so they are where it
       doesn't insist and a cycle is on or would begin, since the collector then works at other times.
   Where one command of a row or of a path is refused, those behind it are one more call. Of the commands
   of owner 0 on its own slots, two of three are calls by number.

   Some of the new objects get tickets. No ticket may be told while the root holds its object by which it
   was taken, and each is told once: at the end all roots are dropped. Where calls insist it prints the
   dump of the heap after the last command, by rheap_dump.

   Usage: differ pace WORDS LIVE BIGGEST RATIO OWNERS SLOTS
            prints the mark and the log's limit
          differ run WORDS LIVE BIGGEST RATIO OWNERS SLOTS
            plays standard input by the calls that don't insist
          differ insist WORDS LIVE BIGGEST RATIO OWNERS SLOTS PLAYED
            plays it by the calls that insist, and where LIVE is 0 collects between them. The file
            PLAYED gets the commands but for those that found no room, which aren't answered
          differ resize WORDS LIVE BIGGEST RATIO OWNERS SLOTS PLAYED
            does the same, and gives the heap other words now and then
          differ grow WORDS MOST BIGGEST RATIO OWNERS SLOTS
            plays standard input by the calls that don't insist, on a heap that grows from WORDS to MOST
            words. It grows after a row of numbers, and not within one, so these are stored as any row is
          differ outgrow WORDS MOST BIGGEST RATIO OWNERS SLOTS PLAYED
            plays it by the calls that insist, on such a heap
   LIVE 0 opens a heap of which no bound is known of what lives. */
#include "rheap.h"
#include <inttypes.h>
#include <stdio.h>
#include <stdlib.h>
#include <string.h>

/* The most stores that are made by one call. */
#define ROW 64
/* The slot of each owner that no command names but those that make an object with its values. */
#define SPARE 0

static rheap heap = RHEAP_INIT;
/* The sizes with which it was opened. */
static uint32_t size[6];
static int insisting = 0;
/* Whether the heap grows. */
static int growing = 0;
/* Whether it collects between commands. */
static int collecting = 0;
/* Whether it is given other words between commands. */
static int resizing = 0;
static int wrong = 0;
static uint64_t commands = 0;
static uint64_t refused = 0;
/* The calls of rheap_store_ints: all, those that were done, those of them where a cycle was on, and
   those for which the log had no places. */
static uint64_t rows = 0;
static uint64_t done_rows = 0;
static uint64_t rows_in_cycles = 0;
static uint64_t limited_rows = 0;
/* Those of them that were texts, and were done. */
static uint64_t texts = 0;
/* The calls on roots in a row: all, and the commands that were done by them. */
static uint64_t root_rows = 0;
static uint64_t root_commands = 0;
/* The calls of rheap_store_row and of rheap_load_path: all, and the commands that were done by them. */
static uint64_t value_rows = 0;
static uint64_t value_commands = 0;
static uint64_t paths = 0;
static uint64_t path_commands = 0;
/* The calls by number. */
static uint64_t calls_by_number = 0;
/* The resizes that were done, and those that were refused. */
static uint64_t resizes = 0;
static uint64_t refused_resizes = 0;

/* The calls of rheap_make and its kin: all, those that were done, and those of them in a cycle. */
static uint64_t makes = 0;
static uint64_t done_makes = 0;
static uint64_t makes_in_cycles = 0;

/* The first refusal that was told since this was DONE. */
static uint8_t first_refusal = RHEAP_DONE;

/* So many tickets there are. */
#define TICKETS 40

/* Of each ticket: whether it is on, and the root by which it was taken, while that root wasn't written
   since. */
static int is_on[TICKETS];
static int is_held[TICKETS];
static rheap_root_id watched[TICKETS];
static uint64_t taken_tickets = 0;
static uint64_t freed_tickets = 0;
static uint64_t told_tickets = 0;

static void must(uint8_t status) {
    if (status != RHEAP_DONE) {
        fprintf(stderr, "differ: command %" PRIu64 ": %s\n", commands, rheap_name(status));
        exit(EXIT_FAILURE);
    }
}

static void agree(int holds, const char *what) {
    if (!holds) {
        fprintf(stderr, "differ: command %" PRIu64 ": %s differs\n", commands, what);
        wrong = 1;
    }
}

/* The root is written now: what it held may be gone from now on. */
static void written(rheap_root_id root) {
    int n;
    for (n = 0; n < TICKETS; n++) {
        if (watched[n].owner == root.owner && watched[n].slot == root.slot) {
            is_held[n] = 0;
        }
    }
}

/* Takes a ticket for a new object, now and then, or frees one. */
static void watch(uint32_t owner, rheap_root_id root) {
    uint64_t ticket;
    uint8_t status;
    if (commands % 7 == 0) {
        ticket = commands / 7 % (TICKETS + 5);
        status = rheap_unwatch(&heap, ticket);
        /* A ticket that is on may be gone already, and not told yet. */
        agree(status == RHEAP_DONE ? ticket < TICKETS && is_on[ticket]
                                   : status == RHEAP_NOT_WATCHED,
              "rheap_unwatch");
        if (status == RHEAP_DONE) {
            is_on[ticket] = 0;
            freed_tickets++;
        } else {
            agree(ticket >= TICKETS || !is_held[ticket], "a ticket that is held");
        }
    }
    if (commands % 3 == 0) {
        status = rheap_watch(&heap, owner, root, &ticket);
        if (status == RHEAP_DONE) {
            agree(ticket < TICKETS && !is_on[ticket], "rheap_watch");
            is_on[ticket] = 1;
            is_held[ticket] = 1;
            watched[ticket] = root;
            taken_tickets++;
        } else {
            agree(status == RHEAP_WATCHES_FULL && ticket == 0, "rheap_watch");
        }
    }
}

/* Takes each ticket that is told. */
static void take_gone(void) {
    uint64_t ticket;
    uint8_t is;
    must(rheap_next_gone(&heap, &ticket, &is));
    while (is == 1) {
        agree(ticket < TICKETS && is_on[ticket] && !is_held[ticket], "rheap_next_gone");
        is_on[ticket] = 0;
        told_tickets++;
        must(rheap_next_gone(&heap, &ticket, &is));
    }
    agree(is == 0 && ticket == 0, "rheap_next_gone");
}

/* At the end no root holds anything, and each ticket that is on is told. */
static void take_all_gone(uint32_t owners, uint32_t slots) {
    uint32_t owner;
    size_t count;
    int n;
    take_gone();
    for (owner = 0; owner < owners; owner++) {
        must(rheap_drop_roots(&heap, owner, rheap_slot(owner, 0), slots, &count));
        agree(count == slots, "rheap_drop_roots");
    }
    memset(is_held, 0, sizeof is_held);
    must(rheap_collect(&heap));
    must(rheap_collect(&heap));
    take_gone();
    for (n = 0; n < TICKETS; n++) {
        agree(!is_on[n], "a ticket at the end");
    }
    agree(taken_tickets == freed_tickets + told_tickets, "the tickets");
}

static int are_equal(rheap_value a, rheap_value b) {
    return a.kind == b.kind && a.fields == b.fields && a.number == b.number;
}

/* What a root holds that is there, with what rheap_fields tells of it. */
static rheap_value held(rheap_root_id root) {
    rheap_value value;
    uint32_t fields;
    uint8_t status = rheap_fields(&heap, root, &fields);
    must(rheap_root(&heap, root, &value));
    if (value.kind == RHEAP_OBJECT || value.kind == RHEAP_RAW) {
        agree(status == RHEAP_DONE && fields == value.fields, "rheap_fields");
    } else {
        agree(status == RHEAP_NOT_OBJECT && fields == 0, "rheap_fields");
    }
    return value;
}

/* What a field holds after a store to it, as each call tells that reads one. */
static rheap_value stored(uint32_t owner, rheap_root_id object, uint32_t field) {
    rheap_value value;
    rheap_value peeked;
    must(rheap_field(&heap, object, field, &value));
    must(rheap_peek(&heap, owner, object, field, &peeked));
    agree(are_equal(value, peeked), "rheap_peek");
    if (object.owner == 0) {
        must(rheap_shared_peek(&heap, object.slot, field, &peeked));
        agree(are_equal(value, peeked), "rheap_shared_peek");
    }
    return value;
}

/* The refusals as a run names them. */
static const char *refusal(uint8_t status) {
    static const char *const names[] = {"",         "NoRoot",     "NotYours",  "NotObject",
                                        "NoField",  "RawField",   "IntRange",  "FieldsRange",
                                        "SpaceFull", "LogFull",   "NumbersSpent"};
    return status <= RHEAP_NUMBERS_SPENT ? names[status] : rheap_name(status);
}

/* Prints a refusal; `fields` are those that were asked for. */
static void tell_refusal(uint8_t status, uint32_t fields) {
    refused++;
    if (first_refusal == RHEAP_DONE) {
        first_refusal = status;
    }
    if (status == RHEAP_SPACE_FULL) {
        rheap_words words;
        must(rheap_room(&heap, fields, &words));
        printf("refused SpaceFull need %" PRIu64 " free %" PRIu64 "\n", words.need, words.free);
    } else {
        printf("refused %s\n", refusal(status));
    }
}

/* Prints the answer to a command that tells a value, or none. */
static void tell(uint8_t status, rheap_value value) {
    if (status != RHEAP_DONE) {
        tell_refusal(status, 0);
    } else if (value.kind == RHEAP_NIL) {
        printf("nil\n");
    } else if (value.kind == RHEAP_NUMBER) {
        printf("int %" PRId64 "\n", value.number);
    } else {
        printf("%s %" PRIu32 "\n", value.kind == RHEAP_OBJECT ? "object" : "raw", value.fields);
    }
}

/* Prints the answer to a command that tells nothing. */
static void tell_done(uint8_t status) {
    if (status != RHEAP_DONE) {
        tell_refusal(status, 0);
    } else {
        printf("done\n");
    }
}

static rheap_root_id root_of(const char *text) {
    char *end;
    uint32_t owner = (uint32_t)strtoul(text, &end, 10);
    return rheap_slot(owner, *end == '\0' ? 0 : (uint32_t)strtoul(end + 1, NULL, 10));
}

static uint32_t number_of(const char *text) {
    return (uint32_t)strtoul(text, NULL, 10);
}

/* After an insisting call found no room: too few words are free, and each that is used is reached. A heap
   that grows has the most words that it may have. */
static void is_full(rheap_words words) {
    rheap_stats before;
    rheap_stats after;
    uint8_t is;
    must(rheap_short(&heap, &is));
    agree(is == (growing ? RHEAP_AT_MOST : RHEAP_AMPLE), "rheap_short");
    must(rheap_stat(&heap, &before));
    must(rheap_collect(&heap));
    must(rheap_stat(&heap, &after));
    agree(words.free < words.need && words.free == before.free, "rheap_room");
    agree(after.used == before.used, "what is left");
}

/* Whether the call is made by the numbers of the slots. */
static int is_by_number(uint32_t owner, rheap_root_id a, rheap_root_id b) {
    if (owner != 0 || a.owner != 0 || b.owner != 0 || commands % 3 == 0) {
        return 0;
    }
    calls_by_number++;
    return 1;
}

static uint8_t call_alloc(uint32_t owner, rheap_root_id dst, uint32_t fields, int raw) {
    if (is_by_number(owner, dst, dst)) {
        if (insisting) {
            return raw ? rheap_shared_insist_alloc_raw(&heap, dst.slot, fields)
                       : rheap_shared_insist_alloc(&heap, dst.slot, fields);
        }
        return raw ? rheap_shared_alloc_raw(&heap, dst.slot, fields)
                   : rheap_shared_alloc(&heap, dst.slot, fields);
    }
    if (insisting) {
        return raw ? rheap_insist_alloc_raw(&heap, owner, dst, fields)
                   : rheap_insist_alloc(&heap, owner, dst, fields);
    }
    return raw ? rheap_alloc_raw(&heap, owner, dst, fields) : rheap_alloc(&heap, owner, dst, fields);
}

/* Whether the command is answered: not where an insisting one found no room. */
static int alloc(uint32_t owner, rheap_root_id dst, uint32_t fields, int raw) {
    rheap_words before;
    rheap_words after;
    rheap_value value;
    uint8_t status;
    memset(&value, 0, sizeof value);
    must(rheap_room(&heap, fields, &before));
    status = call_alloc(owner, dst, fields, raw);
    agree(insisting || (status == RHEAP_SPACE_FULL
                            ? before.need > before.free
                            : status != RHEAP_DONE || before.need <= before.free),
          "rheap_room");
    must(rheap_room(&heap, fields, &after));
    agree(before.need == (uint64_t)fields + 2 && after.need == before.need, "what is needed");
    if (status == RHEAP_DONE) {
        value = held(dst);
        agree(value.kind == (raw ? RHEAP_RAW : RHEAP_OBJECT) && value.fields == fields,
              "the new object");
        written(dst);
        watch(owner, dst);
    } else if (insisting && status == RHEAP_SPACE_FULL) {
        is_full(after);
        return 0;
    }
    if (status == RHEAP_SPACE_FULL) {
        tell_refusal(status, fields);
    } else {
        tell(status, value);
    }
    return 1;
}

/* Whether these are the lowest seven bytes of the number, the lowest one first. */
static int seven_bytes(int64_t number, const unsigned char *bytes) {
    uint64_t left = (uint64_t)number;
    int at;
    for (at = 0; at < 7; at++, left >>= 8) {
        if (bytes[at] != (left & 0xff)) {
            return 0;
        }
    }
    return 1;
}

/* What rheap_load_ints and rheap_load_text tell of these fields, beside a peek at each. */
static void read_in_a_row(uint32_t owner, rheap_root_id src, uint32_t from, uint32_t length) {
    int64_t numbers[ROW];
    unsigned char text[7 * ROW];
    uint32_t bytes;
    rheap_value value;
    uint32_t count;
    uint32_t due = 0;
    uint32_t at;
    int is_on = 1;
    uint8_t status = rheap_load_ints(&heap, owner, src, from, numbers, length, &count);
    uint8_t first = rheap_load_text(&heap, owner, src, from, text, 7 * length, &bytes);
    agree(first == status && bytes == 7 * count, "rheap_load_text");
    first = RHEAP_DONE;
    for (at = 0; at < length && first == RHEAP_DONE; at++) {
        first = rheap_peek(&heap, owner, src, from + at, &value);
        is_on = is_on && value.kind == RHEAP_NUMBER;
        if (is_on) {
            agree(status != RHEAP_DONE || value.number == numbers[at], "rheap_load_ints");
            agree(status != RHEAP_DONE || seven_bytes(value.number, text + 7 * at), "rheap_load_text");
            due++;
        }
    }
    agree(status == first && count == (first == RHEAP_DONE ? due : 0), "rheap_load_ints");
}

/* Every other load is made by the call that returns no value, which is read from the root then. */
static uint8_t call_load(uint32_t owner, rheap_root_id dst, rheap_root_id src, uint32_t field,
                         rheap_value *value) {
    uint8_t status;
    int by_number = is_by_number(owner, dst, src);
    if (commands % 2 == 0) {
        return by_number ? rheap_shared_load(&heap, dst.slot, src.slot, field, value)
                         : rheap_load(&heap, owner, dst, src, field, value);
    }
    status = by_number ? rheap_shared_load_untold(&heap, dst.slot, src.slot, field)
                       : rheap_load_untold(&heap, owner, dst, src, field);
    memset(value, 0, sizeof *value);
    if (status == RHEAP_DONE) {
        *value = held(dst);
    }
    return status;
}

static void load(uint32_t owner, rheap_root_id dst, rheap_root_id src, uint32_t field) {
    rheap_value peeked;
    rheap_value read;
    rheap_value value;
    uint8_t peek = rheap_peek(&heap, owner, src, field, &peeked);
    uint8_t status = rheap_field(&heap, src, field, &read);
    /* Without an owner, no root is another's. */
    agree(peek == RHEAP_NOT_YOURS || peek == RHEAP_NO_ROOT
              ? status != RHEAP_NOT_YOURS
              : status == peek && are_equal(read, peeked),
          "rheap_field");
    read_in_a_row(owner, src, field, (uint32_t)(commands % 5));
    status = call_load(owner, dst, src, field, &value);
    /* A load is also refused for its `dst`. */
    agree(status == peek ? are_equal(value, peeked)
                         : status == RHEAP_NO_ROOT || status == RHEAP_NOT_YOURS,
          "rheap_peek");
    if (status == RHEAP_DONE) {
        written(dst);
        agree(are_equal(value, held(dst)), "rheap_root");
    }
    tell(status, value);
}

/* The value that a store names, or a value of rheap_make. */
static rheap_init operand_of(const char *text) {
    if (strcmp(text, "nil") == 0) {
        return rheap_of_nil();
    }
    return strchr(text, '.') != NULL ? rheap_of_root(root_of(text))
                                     : rheap_of_int((int64_t)strtoll(text, NULL, 10));
}

/* What a root or a field holds that took this value. */
static rheap_value taken_from(rheap_init operand) {
    rheap_value value;
    memset(&value, 0, sizeof value);
    if (operand.kind == RHEAP_NUMBER) {
        value.kind = RHEAP_NUMBER;
        value.number = operand.number;
    } else if (operand.kind != RHEAP_NIL) {
        (void)rheap_root(&heap, operand.root, &value);
    }
    return value;
}

/* The store by the number of the object's slot, and where it is a root's value, of the root's. */
static uint8_t call_store_by_number(uint32_t object, uint32_t field, rheap_init operand) {
    if (operand.kind == RHEAP_NIL) {
        return insisting ? rheap_shared_insist_store_nil(&heap, object, field)
                         : rheap_shared_store_nil(&heap, object, field);
    }
    if (operand.kind == RHEAP_NUMBER) {
        return insisting ? rheap_shared_insist_store_int(&heap, object, field, operand.number)
                         : rheap_shared_store_int(&heap, object, field, operand.number);
    }
    return insisting ? rheap_shared_insist_store_root(&heap, object, field, operand.root.slot)
                     : rheap_shared_store_root(&heap, object, field, operand.root.slot);
}

static uint8_t call_store(uint32_t owner, rheap_root_id object, uint32_t field, rheap_init operand) {
    if (is_by_number(owner, object, operand.root)) {
        return call_store_by_number(object.slot, field, operand);
    }
    if (operand.kind == RHEAP_NIL) {
        return insisting ? rheap_insist_store_nil(&heap, owner, object, field)
                         : rheap_store_nil(&heap, owner, object, field);
    }
    if (operand.kind == RHEAP_NUMBER) {
        return insisting ? rheap_insist_store_int(&heap, owner, object, field, operand.number)
                         : rheap_store_int(&heap, owner, object, field, operand.number);
    }
    return insisting ? rheap_insist_store_root(&heap, owner, object, field, operand.root)
                     : rheap_store_root(&heap, owner, object, field, operand.root);
}

static uint8_t store(uint32_t owner, rheap_root_id object, uint32_t field, rheap_init operand) {
    uint8_t status = call_store(owner, object, field, operand);
    if (status == RHEAP_DONE) {
        agree(are_equal(taken_from(operand), stored(owner, object, field)), "rheap_field");
    }
    agree(!insisting || status != RHEAP_LOG_FULL, "a store that insists");
    tell_done(status);
    return status;
}

static void copy(uint32_t owner, rheap_root_id dst, rheap_root_id src) {
    uint8_t status = is_by_number(owner, dst, src) ? rheap_shared_copy(&heap, dst.slot, src.slot)
                                                   : rheap_copy(&heap, owner, dst, src);
    uint8_t same;
    rheap_value value;
    memset(&value, 0, sizeof value);
    if (status == RHEAP_DONE) {
        written(dst);
        value = held(dst);
        must(rheap_same(&heap, owner, dst, src, &same));
        agree(same == 1 && are_equal(value, held(src)), "rheap_root");
    }
    tell(status, value);
}

static void compare(uint32_t owner, rheap_root_id a, rheap_root_id b) {
    uint8_t same;
    uint8_t status = rheap_same(&heap, owner, a, b, &same);
    if (status != RHEAP_DONE) {
        agree(same == 0, "rheap_same");
        tell_refusal(status, 0);
    } else {
        agree(same == 0 || are_equal(held(a), held(b)), "rheap_same");
        printf("same %s\n", same == 1 ? "yes" : "no");
    }
}

static void drop(uint32_t owner, rheap_root_id root) {
    uint8_t status = is_by_number(owner, root, root) ? rheap_shared_drop(&heap, root.slot)
                                                     : rheap_drop(&heap, owner, root);
    if (status == RHEAP_DONE) {
        written(root);
        agree(held(root).kind == RHEAP_NIL, "rheap_root");
    }
    tell_done(status);
}

static int are_same_stats(rheap_stats a, rheap_stats b) {
    return memcmp(&a, &b, offsetof(rheap_stats, cycle)) == 0 && a.cycle == b.cycle;
}

/* Gives the heap other words, sometimes fewer than are used. A heap that grows refuses that. */
static void resize(void) {
    rheap_stats before;
    rheap_stats after;
    uint32_t words;
    uint8_t status;
    must(rheap_stat(&heap, &before));
    words = (uint32_t)before.used + (uint32_t)(commands * 7 % 400) - (uint32_t)(commands % 2 * 8);
    status = size[1] == 0 || (growing && commands % 2 == 0)
                 ? rheap_resize_sized(&heap, words, size[2])
                 : rheap_resize(&heap, words, size[1], size[2]);
    must(rheap_stat(&heap, &after));
    if (status == RHEAP_DONE) {
        agree(!growing && after.free == words - before.used, "the words of rheap_resize");
        after.free = before.free;
        resizes++;
    } else {
        agree(growing ? status == RHEAP_GROWS
                      : status == RHEAP_NO_PACE ||
                            (status == RHEAP_BAD_SIZES && words - 8 > RHEAP_MAX_WORDS - 8) ||
                            (status == RHEAP_IN_USE && (words < before.used || before.log > 0)),
              "rheap_resize");
        refused_resizes++;
    }
    agree(are_same_stats(before, after), "the heap after rheap_resize");
}

/* The work between commands, where there is some. */
static void between_commands(void) {
    if ((resizing || growing) && commands % 13 == 0) {
        resize();
    }
    if (collecting && commands % 11 == 0) {
        must(rheap_increment(&heap));
    }
    if (collecting && commands % 97 == 0) {
        must(rheap_collect(&heap));
    }
}

/* Stores, each to the field after that of the one before. */
typedef struct {
    const char *line[ROW];
    rheap_init values[ROW];
    int64_t numbers[ROW];
    uint32_t owner;
    rheap_root_id object;
    uint32_t from;
    uint32_t length;
} row;

static int is_same_root(rheap_root_id a, rheap_root_id b) {
    return a.owner == b.owner && a.slot == b.slot;
}

/* Whether the line is one more store of the row, which it is put into then. */
static int goes_on(row *stores, const char *line) {
    char object[24];
    char operand[24];
    uint32_t owner;
    uint32_t field;
    if (stores->length == ROW || sscanf(line, "%" SCNu32 " store %23s %" SCNu32 " %23s", &owner, object,
                                        &field, operand) != 4) {
        return 0;
    }
    if (stores->length == 0) {
        stores->owner = owner;
        stores->object = root_of(object);
        stores->from = field;
    } else if (stores->owner != owner || !is_same_root(stores->object, root_of(object)) ||
               field != stores->from + stores->length) {
        return 0;
    }
    stores->values[stores->length] = operand_of(operand);
    stores->numbers[stores->length] = stores->values[stores->length].number;
    stores->line[stores->length++] = line;
    return 1;
}

static int are_numbers(const row *stores) {
    uint32_t at = 0;
    while (at < stores->length && stores->values[at].kind == RHEAP_NUMBER) {
        at++;
    }
    return at == stores->length;
}

/* How many bytes the text has that the stores are, which is written then; 0 where they are none. Its last
   bytes aren't zero, but for the first of the last number. */
static size_t text_of(const row *stores, unsigned char *text) {
    size_t length = 7 * (size_t)stores->length;
    size_t at;
    for (at = 0; at < length; at++) {
        int64_t number = stores->numbers[at / 7];
        if (number < 0 || number >= INT64_C(1) << 56) {
            return 0;
        }
        text[at] = (unsigned char)(number >> 8 * (at % 7) & 0xff);
    }
    while (text[length - 1] == 0 && length % 7 != 1) {
        length--;
    }
    return length;
}

/* The stores by one call: of the text, where it has bytes, and else of the numbers. */
static uint8_t call_row(const row *stores, int insists, const unsigned char *text, size_t length) {
    if (length > 0) {
        return insists ? rheap_insist_store_text(&heap, stores->owner, stores->object, stores->from,
                                                 text, length)
                       : rheap_store_text(&heap, stores->owner, stores->object, stores->from, text,
                                          length);
    }
    return insists ? rheap_insist_store_ints(&heap, stores->owner, stores->object, stores->from,
                                             stores->numbers, stores->length)
                   : rheap_store_ints(&heap, stores->owner, stores->object, stores->from,
                                      stores->numbers, stores->length);
}

/* Prints what the stores are answered that a call with this status stands for: done, or those of calls
   of their own. */
static void tell_row(const row *stores, uint8_t status) {
    uint8_t first = RHEAP_DONE;
    uint32_t at;
    for (at = 0; at < stores->length; at++) {
        uint8_t single = RHEAP_DONE;
        uint32_t field = stores->from + at;
        commands++;
        if (status == RHEAP_DONE) {
            rheap_value value = stored(stores->owner, stores->object, field);
            agree(value.kind == RHEAP_NUMBER && value.number == stores->numbers[at], "rheap_field");
            tell_done(status);
        } else {
            single = store(stores->owner, stores->object, field, stores->values[at]);
        }
        if (first == RHEAP_DONE && single != RHEAP_LOG_FULL) {
            first = single;
        }
    }
    agree(first == (status == RHEAP_LOG_FULL ? RHEAP_DONE : status), "the first refusal");
}

/* Plays the stores of numbers by one call. Where it is refused, it changed nothing, and they are played
   one by one: the first of them that a limit doesn't refuse has the status of the call. */
static void play_row(const row *stores) {
    unsigned char text[7 * ROW];
    size_t bytes = text_of(stores, text);
    rheap_pacing pacing;
    rheap_stats before;
    rheap_stats after;
    uint8_t status;
    must(rheap_pace(&heap, &pacing));
    must(rheap_store_ints(&heap, stores->owner, stores->object, stores->from, stores->numbers, 0));
    must(rheap_stat(&heap, &before));
    status = call_row(stores, 0, text, bytes);
    must(rheap_stat(&heap, &after));
    agree(status == RHEAP_DONE ? after.number == before.number + stores->length
                               : are_same_stats(before, after),
          "rheap_store_ints");
    agree(status == RHEAP_DONE || status == RHEAP_LOG_FULL
              ? (before.cycle == 1 && before.log + stores->length > pacing.log_limit) ==
                    (status == RHEAP_LOG_FULL)
              : status <= (bytes > 0 ? RHEAP_NO_FIELD : RHEAP_INT_RANGE),
          "the log's limit");
    rows++;
    done_rows += status == RHEAP_DONE;
    texts += status == RHEAP_DONE && bytes > 0;
    rows_in_cycles += status == RHEAP_DONE && before.cycle == 1;
    limited_rows += status == RHEAP_LOG_FULL;
    if (insisting && status == RHEAP_LOG_FULL) {
        status = call_row(stores, 1, text, bytes);
        must(status);
    }
    tell_row(stores, status);
    read_in_a_row(stores->owner, stores->object, stores->from, stores->length);
    between_commands();
}

/* Plays the stores from one on by one call, up to the first that is refused. How many were answered. */
static uint32_t play_values_from(const row *stores, uint32_t at) {
    uint32_t length = stores->length - at;
    uint32_t from = stores->from + at;
    size_t count = ROW + 1;
    uint32_t n;
    uint8_t status = insisting ? rheap_insist_store_row(&heap, stores->owner, stores->object, from,
                                                        stores->values + at, length, &count)
                               : rheap_store_row(&heap, stores->owner, stores->object, from,
                                                 stores->values + at, length, &count);
    agree(!insisting || status != RHEAP_LOG_FULL, "a row of values that insists");
    agree(count <= length && (status == RHEAP_DONE) == (count == length), "rheap_store_row");
    value_rows++;
    value_commands += count;
    for (n = 0; n < count; n++) {
        agree(are_equal(taken_from(stores->values[at + n]),
                        stored(stores->owner, stores->object, from + n)),
              "a value of rheap_store_row");
        tell_done(RHEAP_DONE);
    }
    if (status != RHEAP_DONE) {
        tell_refusal(status, 0);
    }
    return (uint32_t)count + (status != RHEAP_DONE);
}

static void play_values(const row *stores) {
    uint32_t at = 0;
    while (at < stores->length) {
        uint32_t played = play_values_from(stores, at);
        commands += played;
        at += played;
    }
    between_commands();
}

/* Loads into slots one after the other, stores of such slots, or drops of them. */
typedef struct {
    char word[8];
    uint32_t owner;
    rheap_root_id object;
    rheap_root_id first;
    uint32_t from;
    uint32_t length;
} root_row;

/* Whether the line is one more command of the row, which it is put into then. */
static int goes_on_with_roots(root_row *row, const char *line) {
    char word[8];
    char part[3][24];
    unsigned owner;
    rheap_root_id object = rheap_slot(0, 0);
    rheap_root_id root;
    uint32_t field = row->from + row->length;
    memset(part, 0, sizeof part);
    if (row->length == ROW ||
        sscanf(line, "%u %7s %23s %23s %23s", &owner, word, part[0], part[1], part[2]) < 3) {
        return 0;
    }
    if (strcmp(word, "load") == 0) {
        root = root_of(part[0]);
        object = root_of(part[1]);
        field = number_of(part[2]);
    } else if (strcmp(word, "store") == 0 && strchr(part[2], '.') != NULL) {
        object = root_of(part[0]);
        field = number_of(part[1]);
        root = root_of(part[2]);
    } else if (strcmp(word, "drop") == 0) {
        root = root_of(part[0]);
    } else {
        return 0;
    }
    if (row->length == 0) {
        strcpy(row->word, word);
        row->owner = owner;
        row->object = object;
        row->first = root;
        row->from = field;
    } else if (strcmp(row->word, word) != 0 || row->owner != owner ||
               !is_same_root(row->object, object) || field != row->from + row->length ||
               !is_same_root(rheap_slot(row->first.owner, row->first.slot + row->length), root)) {
        return 0;
    }
    row->length++;
    return 1;
}

/* Every other row of loads is made by the call that returns no values: they are read from the roots. */
static uint8_t call_load_roots(const root_row *row, uint32_t at, rheap_value *values, size_t *count) {
    rheap_root_id first = rheap_slot(row->first.owner, row->first.slot + at);
    uint32_t length = row->length - at;
    uint8_t status;
    uint32_t n;
    if (commands % 2 == 0) {
        return rheap_load_roots(&heap, row->owner, first, row->object, row->from + at, values, length,
                                count);
    }
    status = rheap_load_roots_untold(&heap, row->owner, first, row->object, row->from + at, length,
                                     count);
    for (n = 0; n < *count && n < length; n++) {
        values[n] = held(rheap_slot(first.owner, first.slot + n));
    }
    return status;
}

/* Plays the commands of the row from one on by one call, up to the first that is refused. How many
   were answered. */
static uint32_t play_roots_from(const root_row *row, uint32_t at) {
    rheap_root_id first = rheap_slot(row->first.owner, row->first.slot + at);
    uint32_t length = row->length - at;
    rheap_value values[ROW];
    size_t count = ROW + 1;
    uint32_t n;
    uint8_t status;
    memset(values, 0x5a, sizeof values);
    if (strcmp(row->word, "load") == 0) {
        status = call_load_roots(row, at, values, &count);
    } else if (strcmp(row->word, "drop") == 0) {
        status = rheap_drop_roots(&heap, row->owner, first, length, &count);
    } else {
        status = insisting ? rheap_insist_store_roots(&heap, row->owner, row->object,
                                                      row->from + at, first, length, &count)
                           : rheap_store_roots(&heap, row->owner, row->object, row->from + at, first,
                                               length, &count);
        agree(!insisting || status != RHEAP_LOG_FULL, "a row that insists");
    }
    agree(count <= length && (status == RHEAP_DONE) == (count == length), "roots in a row");
    root_rows++;
    root_commands += count;
    for (n = 0; n < count; n++) {
        rheap_root_id root = rheap_slot(first.owner, first.slot + n);
        if (strcmp(row->word, "load") == 0) {
            written(root);
            agree(are_equal(values[n], held(root)), "rheap_load_roots");
            tell(RHEAP_DONE, values[n]);
        } else if (strcmp(row->word, "drop") == 0) {
            written(root);
            agree(held(root).kind == RHEAP_NIL, "rheap_drop_roots");
            tell_done(RHEAP_DONE);
        } else {
            agree(are_equal(held(root), stored(row->owner, row->object, row->from + at + n)),
                  "rheap_store_roots");
            tell_done(RHEAP_DONE);
        }
    }
    if (status != RHEAP_DONE) {
        agree(values[count].kind == 0x5a5a5a5a, "what is behind a row");
        tell_refusal(status, 0);
    }
    return (uint32_t)count + (status != RHEAP_DONE);
}

static void play_roots(const root_row *row) {
    uint32_t at = 0;
    while (at < row->length) {
        uint32_t played = play_roots_from(row, at);
        commands += played;
        at += played;
    }
    between_commands();
}

/* Loads into one slot, each but the first from what the one before it loaded. */
typedef struct {
    uint32_t fields[ROW];
    uint32_t owner;
    rheap_root_id dst;
    rheap_root_id src;
    uint32_t length;
} path;

/* Whether the line is one more load of the path, which it is put into then. */
static int goes_on_with_path(path *loads, const char *line) {
    char dst[24];
    char src[24];
    uint32_t owner;
    uint32_t field;
    if (loads->length == ROW || sscanf(line, "%" SCNu32 " load %23s %23s %" SCNu32, &owner, dst, src,
                                       &field) != 4) {
        return 0;
    }
    if (loads->length == 0) {
        loads->owner = owner;
        loads->dst = root_of(dst);
        loads->src = root_of(src);
    } else if (loads->owner != owner || !is_same_root(loads->dst, root_of(dst)) ||
               !is_same_root(loads->dst, root_of(src))) {
        return 0;
    }
    loads->fields[loads->length++] = field;
    return 1;
}

/* What the loads of the path from one on answer into the spare slot, which is nil before and after.
   `count` gets how many are done, up to the first that is refused, whose status it is. */
static uint8_t walk(const path *loads, uint32_t at, rheap_root_id src, rheap_value *values,
                    size_t *count) {
    rheap_root_id spare = rheap_slot(loads->owner, SPARE);
    uint8_t status = RHEAP_DONE;
    for (*count = 0; *count < loads->length - at; (*count)++) {
        status = rheap_load(&heap, loads->owner, spare, *count == 0 ? src : spare,
                            loads->fields[at + *count], &values[*count]);
        if (status != RHEAP_DONE) {
            break;
        }
    }
    (void)rheap_drop(&heap, loads->owner, spare);
    return status;
}

/* Plays the loads of the path from one on by one call, up to the first that is refused. How many were
   answered. */
static uint32_t play_path_from(const path *loads, uint32_t at) {
    rheap_root_id src = at == 0 ? loads->src : loads->dst;
    rheap_value values[ROW];
    rheap_value last;
    size_t due;
    size_t count = ROW + 1;
    size_t n;
    uint8_t first = walk(loads, at, src, values, &due);
    uint8_t status = rheap_load_path(&heap, loads->owner, loads->dst, src, loads->fields + at,
                                     loads->length - at, &count, &last);
    /* The path is also refused for its `dst`. */
    agree(status == first ? count == due
                          : count == 0 && (status == RHEAP_NO_ROOT || status == RHEAP_NOT_YOURS),
          "rheap_load_path");
    if (count > 0) {
        written(loads->dst);
        agree(are_equal(last, values[count - 1]) && are_equal(last, held(loads->dst)),
              "the value of a path");
    } else {
        agree(last.kind == RHEAP_NIL && last.fields == 0 && last.number == 0, "no value of a path");
    }
    paths++;
    path_commands += count;
    for (n = 0; n < count; n++) {
        tell(RHEAP_DONE, values[n]);
    }
    if (status != RHEAP_DONE) {
        tell_refusal(status, 0);
    }
    return (uint32_t)count + (status != RHEAP_DONE);
}

static void play_path(const path *loads) {
    uint32_t at = 0;
    while (at < loads->length) {
        uint32_t played = play_path_from(loads, at);
        commands += played;
        at += played;
    }
    between_commands();
}

/* Plays a line: an owner, a word and up to three parts. Whether it is answered. */
static int play(const char *line) {
    char word[8];
    char part[3][24];
    unsigned owner;
    memset(part, 0, sizeof part);
    if (sscanf(line, "%u %7s %23s %23s %23s", &owner, word, part[0], part[1], part[2]) < 3) {
        fprintf(stderr, "differ: no command: %s", line);
        exit(EXIT_FAILURE);
    }
    commands++;
    between_commands();
    if (strcmp(word, "alloc") == 0 || strcmp(word, "raw") == 0) {
        return alloc(owner, root_of(part[0]), number_of(part[1]), word[0] == 'r');
    }
    if (strcmp(word, "load") == 0) {
        load(owner, root_of(part[0]), root_of(part[1]), number_of(part[2]));
    } else if (strcmp(word, "store") == 0) {
        (void)store(owner, root_of(part[0]), number_of(part[1]), operand_of(part[2]));
    } else if (strcmp(word, "copy") == 0) {
        copy(owner, root_of(part[0]), root_of(part[1]));
    } else if (strcmp(word, "same") == 0) {
        compare(owner, root_of(part[0]), root_of(part[1]));
    } else {
        drop(owner, root_of(part[0]));
    }
    return 1;
}

/* An object that is made in a spare slot, stores to its fields from the first on, a copy of it and the
   drop of that slot. */
typedef struct {
    const char *line[ROW + 3];
    rheap_init values[ROW];
    unsigned owner;
    int raw;
    uint32_t fields;
    uint32_t count;
    rheap_root_id dst;
    uint32_t length;
    int ended;
} making;

static int is_spare(const char *root, unsigned owner) {
    return is_same_root(root_of(root), rheap_slot(owner, SPARE));
}

/* Whether the line is one more command of the object, which it is put into then. */
static int goes_on_making(making *made, const char *line) {
    char word[8];
    char part[3][24];
    unsigned owner;
    memset(part, 0, sizeof part);
    if (made->ended ||
        sscanf(line, "%u %7s %23s %23s %23s", &owner, word, part[0], part[1], part[2]) < 3 ||
        (made->length > 0 && owner != made->owner)) {
        return 0;
    }
    if (made->length == 0) {
        made->raw = strcmp(word, "raw") == 0;
        if ((!made->raw && strcmp(word, "alloc") != 0) || !is_spare(part[0], owner)) {
            return 0;
        }
        made->owner = owner;
        made->fields = number_of(part[1]);
    } else if (strcmp(word, "store") == 0 && is_spare(part[0], owner) &&
               number_of(part[1]) == made->count && made->count < ROW) {
        made->values[made->count++] = operand_of(part[2]);
    } else if (strcmp(word, "copy") == 0 && is_spare(part[1], owner)) {
        made->dst = root_of(part[0]);
    } else if (strcmp(word, "drop") == 0 && is_spare(part[0], owner)) {
        made->ended = 1;
    } else {
        return 0;
    }
    made->line[made->length++] = line;
    return 1;
}

static uint8_t make(const making *made) {
    if (insisting) {
        return made->raw ? rheap_insist_make_raw(&heap, made->owner, made->dst, made->fields,
                                                 made->values, made->count)
                         : rheap_insist_make(&heap, made->owner, made->dst, made->fields,
                                             made->values, made->count);
    }
    return made->raw ? rheap_make_raw(&heap, made->owner, made->dst, made->fields, made->values,
                                      made->count)
                     : rheap_make(&heap, made->owner, made->dst, made->fields, made->values,
                                  made->count);
}

/* Prints what the commands are answered that the call stands for. */
static void tell_made(const making *made, const rheap_value *taken) {
    rheap_value object = held(made->dst);
    uint32_t at;
    agree(object.kind == (made->raw ? RHEAP_RAW : RHEAP_OBJECT) && object.fields == made->fields,
          "the object that was made");
    tell(RHEAP_DONE, object);
    for (at = 0; at < made->count; at++) {
        agree(are_equal(taken[at], stored(made->owner, made->dst, at)), "a value of rheap_make");
        tell_done(RHEAP_DONE);
    }
    for (; at < made->fields; at++) {
        agree(stored(made->owner, made->dst, at).kind == RHEAP_NIL, "a field without a value");
    }
    tell(RHEAP_DONE, object);
    tell_done(RHEAP_DONE);
    commands += made->length;
    written(made->dst);
    watch(made->owner, made->dst);
}

/* Plays the object by one call. Where it is refused, it changed nothing, and its commands are played one
   by one: its refusal is that of the root that it was to be in, or the first of theirs. */
static void play_made(const making *made, FILE *played) {
    rheap_value taken[ROW];
    rheap_pacing pacing;
    rheap_stats before;
    rheap_stats after;
    rheap_words room;
    uint8_t status = RHEAP_DONE;
    uint32_t at;
    int is_tried;
    int is_left_out = 0;
    must(rheap_pace(&heap, &pacing));
    must(rheap_stat(&heap, &before));
    must(rheap_room(&heap, made->fields, &room));
    is_tried = made->ended &&
               (insisting || (before.cycle == 0 && room.free >= room.need + pacing.mark));
    for (at = 0; at < made->count && is_tried; at++) {
        taken[at] = taken_from(made->values[at]);
    }
    if (is_tried) {
        status = make(made);
        makes++;
        done_makes += status == RHEAP_DONE;
        makes_in_cycles += status == RHEAP_DONE && before.cycle == 1;
    }
    if (is_tried && insisting && status == RHEAP_SPACE_FULL) {
        must(rheap_room(&heap, made->fields, &room));
        is_full(room);
        return;
    }
    if (is_tried && status == RHEAP_DONE) {
        tell_made(made, taken);
    }
    if (is_tried && status != RHEAP_DONE) {
        must(rheap_stat(&heap, &after));
        agree(are_same_stats(before, after) && status <= RHEAP_FIELDS_RANGE, "a refused rheap_make");
    }
    first_refusal = rheap_copy(&heap, made->owner, made->dst, made->dst);
    for (at = 0; at < made->length; at++) {
        int is_answered = (is_tried && status == RHEAP_DONE) || play(made->line[at]);
        if (is_answered && played != NULL) {
            fputs(made->line[at], played);
        }
        is_left_out = is_left_out || !is_answered;
    }
    agree(!is_tried || first_refusal == status || is_left_out,
          "the refusal of rheap_make");
    between_commands();
}

/* Prints the dump of the heap. */
static void print_dump(void) {
    size_t length;
    char *text;
    agree(rheap_dump(&heap, NULL, 0, &length) == RHEAP_TOO_LONG, "the length of a dump");
    text = (char *)malloc(length);
    must(text == NULL ? RHEAP_NO_MEMORY : rheap_dump(&heap, text, length, &length));
    agree(fwrite(text, 1, length, stdout) == length, "the dump that is written");
    free(text);
}

/* The lines of standard input. */
static char (*lines)[128] = NULL;
static size_t line_count = 0;

static void read_lines(void) {
    size_t room = 0;
    do {
        if (line_count == room) {
            room = 2 * room + 1000;
            lines = (char(*)[128])realloc(lines, room * sizeof *lines);
            must(lines == NULL ? RHEAP_NO_MEMORY : RHEAP_DONE);
        }
    } while (fgets(lines[line_count], sizeof *lines, stdin) != NULL && ++line_count > 0);
}

/* Plays the lines from one on that make an object with its values. How many they are. */
static size_t play_making(size_t next, FILE *played) {
    static making made;
    size_t at = next;
    made.length = made.count = 0;
    made.ended = 0;
    while (at < line_count && goes_on_making(&made, lines[at])) {
        at++;
    }
    if (made.length > 0) {
        play_made(&made, played);
    }
    return made.length;
}

/* Plays the lines from one on that are a path or a row. How many they are; 0 where it is one alone. */
static size_t play_in_a_row(size_t next) {
    static row stores;
    static root_row roots;
    static path loads;
    size_t at;
    stores.length = roots.length = loads.length = 0;
    for (at = next; at < line_count && goes_on(&stores, lines[at]); at++) {
    }
    for (at = next; at < line_count && goes_on_with_roots(&roots, lines[at]); at++) {
    }
    for (at = next; at < line_count && goes_on_with_path(&loads, lines[at]); at++) {
    }
    if (loads.length > 1 && loads.length >= roots.length) {
        play_path(&loads);
        return loads.length;
    }
    if (roots.length > 1 && roots.length >= stores.length) {
        play_roots(&roots);
        return roots.length;
    }
    if (stores.length > 1 && are_numbers(&stores) && (insisting || !growing)) {
        play_row(&stores);
        return stores.length;
    }
    if (stores.length > 1) {
        play_values(&stores);
        return stores.length;
    }
    return 0;
}

/* Plays the lines from one on that one call stands for, or this line alone. How many they are. */
static size_t play_lines(size_t next, FILE *played) {
    size_t count = play_making(next, played);
    size_t at;
    if (count > 0) {
        return count;
    }
    count = play_in_a_row(next);
    if (count == 0) {
        if (!play(lines[next])) {
            return 1;
        }
        count = 1;
    }
    for (at = 0; at < count && played != NULL; at++) {
        fputs(lines[next + at], played);
    }
    return count;
}

/* Prints how many calls there were of each kind. */
static void print_counts(void) {
    fprintf(stderr, "roots %" PRIu64 " done %" PRIu64 " tickets %" PRIu64 " told %" PRIu64 "\n",
            root_rows, root_commands, taken_tickets, told_tickets);
    fprintf(stderr, "makes %" PRIu64 " done %" PRIu64 " in cycles %" PRIu64 "\n", makes, done_makes,
            makes_in_cycles);
    fprintf(stderr,
            "rows %" PRIu64 " done %" PRIu64 " in cycles %" PRIu64 " limited %" PRIu64
            " texts %" PRIu64 "\n",
            rows, done_rows, rows_in_cycles, limited_rows, texts);
    fprintf(stderr, "values %" PRIu64 " done %" PRIu64 " paths %" PRIu64 " done %" PRIu64 "\n",
            value_rows, value_commands, paths, path_commands);
    fprintf(stderr, "numbers %" PRIu64 " resizes %" PRIu64 " refused %" PRIu64 "\n", calls_by_number,
            resizes, refused_resizes);
}

/* Plays standard input. `played` gets what is answered, where it isn't NULL. */
static void play_all(FILE *played) {
    rheap_stats stats;
    size_t next = 0;
    read_lines();
    while (next < line_count) {
        next += play_lines(next, played);
        take_gone();
    }
    free(lines);
    if (insisting) {
        print_dump();
    }
    must(rheap_stat(&heap, &stats));
    if (!insisting) {
        printf("total commands %" PRIu64 " refused %" PRIu64 " flips %" PRIu64
               " rootwords %" PRIu64 "\n",
               commands, refused, stats.flips, stats.root_words);
    }
    print_counts();
}

/* Plays standard input, and writes what is answered into the file. */
static void play_into(const char *name) {
    FILE *played = fopen(name, "w");
    if (played == NULL) {
        perror("differ");
        exit(2);
    }
    play_all(played);
    if (fclose(played) != 0) {
        perror("differ");
        exit(2);
    }
}

/* Opens the heap: one of fixed sizes, or one that grows. */
static void open_heap(void) {
    if (growing) {
        const rheap_growth growth = {size[0], size[1], 200, size[2], size[3], size[4], size[5]};
        must(rheap_open_growth(&heap, &growth));
    } else {
        must(size[1] == 0
                 ? rheap_open_sized(&heap, size[0], size[2], size[3], size[4], size[5])
                 : rheap_open(&heap, size[0], size[1], size[2], size[3], size[4], size[5]));
    }
    must(rheap_watch_room(&heap, TICKETS));
}

int main(int argc, char **argv) {
    int n;
    if (argc < 8) {
        fprintf(stderr, "differ: it takes pace, run, grow, insist, resize or outgrow, six numbers, and of "
                        "the last three a file\n");
        return 2;
    }
    for (n = 0; n < 6; n++) {
        size[n] = number_of(argv[n + 2]);
    }
    growing = strcmp(argv[1], "grow") == 0 || strcmp(argv[1], "outgrow") == 0;
    resizing = strcmp(argv[1], "resize") == 0;
    insisting = argc == 9;
    collecting = insisting && (growing || size[1] == 0);
    open_heap();
    if (strcmp(argv[1], "pace") == 0) {
        rheap_pacing pacing;
        must(rheap_pace(&heap, &pacing));
        printf("%" PRIu32 " %" PRIu32 "\n", pacing.mark, pacing.log_limit);
    } else if (insisting) {
        play_into(argv[8]);
    } else {
        play_all(NULL);
    }
    take_all_gone(size[4], size[5]);
    must(rheap_close(&heap));
    return wrong;
}
