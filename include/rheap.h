/*
 * rheap.h: a managed heap that collects by itself, for programs in C99 and C++11. You can read it
 * in ten minutes.
 *
 * A heap has a space of words, of 16 bytes in each of two halves. An object takes 2 words and one
 * for each field. A field holds nil, a whole number from -2^61 to 2^61 - 1, or a reference to an
 * object. A program names objects by roots: numbered slots of owners, both counted from 0. Owner
 * 0's slots are shared by all owners. No call gives an address out, so no pointer of yours changes
 * when objects move.
 *
 * Each call answers a status: 0 is done. A refused call changes nothing. But the rheap_insist_
 * calls may have collected before, and those on roots in a row and on paths leave done what they
 * did before the refusal. Where a call tells something by a pointer, it writes there whatever the
 * status: nil or 0 where there is nothing to tell. Of numbers, bytes or values in a row it writes
 * only those that it read.
 *
 * Whole traces, below, are run by two calls of another kind: they take a text in place of a handle,
 * and have statuses of their own.
 *
 * What a program must keep, since nothing checks it:
 *   - make the handle by RHEAP_INIT before the first call, and leave its words alone from then on;
 *   - move it, if you like, but never use two copies of it;
 *   - make one call at a time on a handle, a reading one too; a lock, or a thread's start or end,
 *     orders two threads, and a lock that lets two readers in doesn't;
 *   - make no call in a signal handler, nor in the forked child of a process with threads;
 *   - pass pointers to memory of your own that is good for the call, apart from the handle and from
 *     each other; none may be null, not even one with length 0.
 *
 * Work of the collector is counted in units; a unit is not a machine instruction. Units count
 * neither words written, up to 4,097 for 3 units, nor looks at roots. So ask for no more owners and
 * slots than you use. Below, ratio is that with which the heap was opened. A call that names no
 * units does no collector work, but for the rheap_insist_ calls, which may do that of two
 * rheap_collect, and rheap_insist_store_roots and rheap_insist_store_row for each of their stores.
 *
 * What a call costs, in instructions of x86-64, with the loop of 10 to 12 round it. No cycle is on,
 * and nothing is refused; docs/c.md says how they were counted, and what of:
 *   alloc, 4 fields      86     load            73 to 81     4 roots: load_roots      311
 *   store_root           78     load_untold           58       store_roots            317
 *   store_int            58     peek, field       60, 56       insist_store_roots     401
 *   store_nil            51     root, room        59, 22       drop_roots              88
 *   copy, drop       41, 30     same                  45     load_path, 3 fields      247
 *   143 numbers: store_ints  2,999, load_ints  2,373     watch and unwatch            114
 *   1,000 bytes: store_text  2,775, load_text  3,727     next_gone, none gone          26
 *   make of 2 values, 6 values    188, 330               store_row of 4 values        407
 *   by number, rheap_shared_*: alloc 72, load 58 to 61, load_untold 42, stores 41 to 52, copy 27,
 *     drop 19, peek 49
 *   resize, resize_sized          231, 242, where they ask for no memory
 * The other rheap_insist_ calls cost what the plain ones do. In a cycle an allocation or a store does its
 * collector work too: 400 to 1,000 instructions, mostly. Words and memory: an object takes 2 words
 * and one for each field, a word 32 bytes, a ticket 12 bytes, and an entry of the log 32.
 */
#ifndef RHEAP_H
#define RHEAP_H

#include <stddef.h>
#include <stdint.h>

#define RHEAP_VERSION_MAJOR 0
#define RHEAP_VERSION_MINOR 1
#define RHEAP_VERSION_PATCH 0

#ifdef __cplusplus
extern "C" {
#endif

/* The statuses. From 1 to 7 the call asks what it may not; from 8 to 10 a limit refuses it. Where
   several hold, the least of 1 to 10 is answered, and NOT_OPEN before them. rheap_make, the calls
   on fields in a row and rheap_resize say their own order. A call that opens a heap answers the first that holds of
   IS_OPEN, BAD_GROWTH, NO_PACE, BAD_SIZES and NO_MEMORY. */
enum {
    /* The call was done. */
    RHEAP_DONE = 0,
    /* The owner, a root's owner or its slot isn't there. */
    RHEAP_NO_ROOT = 1,
    /* A root belongs to another owner, who isn't owner 0. */
    RHEAP_NOT_YOURS = 2,
    /* The root names no object. */
    RHEAP_NOT_OBJECT = 3,
    /* The object has no such field. */
    RHEAP_NO_FIELD = 4,
    /* The object is raw, and the value is a reference. */
    RHEAP_RAW_FIELD = 5,
    /* The number is below RHEAP_MIN_INT or above RHEAP_MAX_INT. */
    RHEAP_INT_RANGE = 6,
    /* An object may not have so many fields, or values for them: more than RHEAP_MAX_FIELDS. */
    RHEAP_FIELDS_RANGE = 7,
    /* The object needs more words, its fields and 2, than are free. rheap_room tells both. */
    RHEAP_SPACE_FULL = 8,
    /* In a cycle: the log holds as many stores as it may, or has no places for so many. */
    RHEAP_LOG_FULL = 9,
    /* 2^62 stores were done. */
    RHEAP_NUMBERS_SPENT = 10,
    /* 2^62 - 1 cycles were done, so nothing can be collected any more. */
    RHEAP_EPOCHS_SPENT = 11,
    /* The handle holds no heap: none was opened, or it was closed. */
    RHEAP_NOT_OPEN = 12,
    /* The handle holds a heap already. */
    RHEAP_IS_OPEN = 13,
    /* At these sizes no pace keeps up: the ratio is below 4, or the space is too small. */
    RHEAP_NO_PACE = 14,
    /* The words aren't 8 to 16,777,216, the ratio is above 64, the owners aren't 1 to 16, or the
       slots aren't 1 to 256. */
    RHEAP_BAD_SIZES = 15,
    /* Memory was refused. */
    RHEAP_NO_MEMORY = 16,
    /* No ticket is free: rheap_watch_room makes more. */
    RHEAP_WATCHES_FULL = 17,
    /* The ticket watches no object: it isn't there, it is free, or its object is gone. */
    RHEAP_NOT_WATCHED = 18,
    /* A heap may not have so many tickets: more than RHEAP_MAX_TICKETS in all. */
    RHEAP_TICKETS_RANGE = 19,
    /* A value that a call is given is of none of the kinds below. */
    RHEAP_BAD_KIND = 20,
    /* The factor isn't 100 to 1,000 percent, at_least is above at_most, or at_most is above
       16,777,216. */
    RHEAP_BAD_GROWTH = 21,
    /* The text has more bytes than there is room for. */
    RHEAP_TOO_LONG = 22,
    /* A cycle is on. */
    RHEAP_CYCLE_ON = 23,
    /* Objects use more words than the heap is to have, or the log holds more stores than it may
       then. */
    RHEAP_IN_USE = 24,
    /* The heap grows: it chooses its own words. */
    RHEAP_GROWS = 25
};

/* The kinds of values. */
enum {
    /* No object and no number: a field of a new object, or a root that was never written. */
    RHEAP_NIL = 0,
    /* A whole number. */
    RHEAP_NUMBER = 1,
    /* A reference to an object. */
    RHEAP_OBJECT = 2,
    /* A reference to a raw object, whose fields hold nil and numbers alone. */
    RHEAP_RAW = 3
};

/* The limits of a heap. */
#define RHEAP_MAX_WORDS 16777216u
#define RHEAP_MAX_OWNERS 16u
#define RHEAP_MAX_SLOTS 256u
#define RHEAP_MAX_FIELDS 4095u
#define RHEAP_MAX_TICKETS 65536u
#define RHEAP_MAX_INT INT64_C(2305843009213693951)
#define RHEAP_MIN_INT (-RHEAP_MAX_INT - 1)

/* A handle: what a program keeps of a heap. While it is uninitialised, any call on it is undefined,
   rheap_open too. An assignment makes a second copy: use one of the two from then on, and give the
   other RHEAP_INIT. */
typedef struct rheap {
    /* A heap of fixed sizes, or null. */
    void *at;
    /* A heap that grows, or null. One of the two at most is open. */
    void *grows_at;
} rheap;

/* A handle that holds no heap. It initialises alone. A handle in memory of malloc takes it by
   `*heap = (rheap)RHEAP_INIT;` in C, and by `*heap = rheap RHEAP_INIT;` in C++. */
#ifdef __cplusplus
#define RHEAP_INIT { nullptr, nullptr }
#else
#define RHEAP_INIT { 0, 0 }
#endif

/* A root: a slot of an owner, both counted from 0. */
typedef struct rheap_root_id {
    uint32_t owner;
    uint32_t slot;
} rheap_root_id;

/* What a root or a field holds. */
typedef struct rheap_value {
    /* RHEAP_NIL, RHEAP_NUMBER, RHEAP_OBJECT or RHEAP_RAW. */
    uint32_t kind;
    /* How many fields the object has; 0 where the value is no reference. */
    uint32_t fields;
    /* The number; 0 where the value is none. */
    int64_t number;
} rheap_value;

/* A value that a call is given, for a field. rheap_of_nil, rheap_of_int and rheap_of_root, below, make
   one each. */
typedef struct rheap_init {
    /* RHEAP_NIL, RHEAP_NUMBER, or RHEAP_OBJECT or RHEAP_RAW: both mean what the root holds, whatever
       that is. */
    uint32_t kind;
    /* The root. It isn't looked at where the kind is RHEAP_NIL or RHEAP_NUMBER. */
    rheap_root_id root;
    /* The number. It isn't looked at where the kind isn't RHEAP_NUMBER. */
    int64_t number;
} rheap_init;

/* The numbers of a heap. */
typedef struct rheap_stats {
    /* The words of the space that objects have, and those that none has. */
    uint64_t used;
    uint64_t free;
    /* The epoch, from 1: one more after each cycle. */
    uint64_t epoch;
    /* The number of the last accepted store, and 0 before the first. */
    uint64_t number;
    /* The stores that the log holds. */
    uint64_t log;
    /* The units that words allocated in the last cycle granted, those that stores paid or a
       collection added, and those that were spent. They stay after its end. */
    uint64_t granted;
    uint64_t idle;
    uint64_t spent;
    /* The objects that are placed, and their fields whose last store isn't held yet. */
    uint64_t placed;
    uint64_t missing;
    /* The flips, each of which ended a cycle, and the words of roots that they wrote: 2^64 - 1
       where there were more. */
    uint64_t flips;
    uint64_t root_words;
    /* 1 where a cycle is on, and else 0. */
    uint8_t cycle;
} rheap_stats;

/* What the last increment or collection did. */
typedef struct rheap_did {
    /* How many stores of the log and fields of placed objects it looked at. */
    uint64_t held;
    /* How many objects it placed since roots refer to them. */
    uint32_t shaded;
    /* Where it ended a cycle: the roots that it wrote, and the words that live on. */
    uint32_t roots;
    uint32_t live_words;
    /* 1 where it began a cycle, and else 0. */
    uint8_t began;
    /* 1 where it ended a cycle, and else 0. */
    uint8_t flipped;
} rheap_did;

/* The pace at which a heap collects. */
typedef struct rheap_pacing {
    /* A cycle begins where fewer words than these are free. */
    uint32_t mark;
    /* The units of collector work that a store pays in a cycle. */
    uint32_t store_units;
    /* The stores that the log holds at most. */
    uint32_t log_limit;
} rheap_pacing;

/* The words of an object beside those of the heap. */
typedef struct rheap_words {
    /* The words that an object of so many fields needs: its fields and 2. */
    uint64_t need;
    /* The words of the space that no object has. */
    uint64_t free;
} rheap_words;

/* What a program keeps of a heap's cycles: rheap_cycle reads the heap by it. Make it by
   RHEAP_CYCLE_READER_INIT, and leave its numbers alone from then on. It is for one heap. */
typedef struct rheap_cycle_reader {
    /* The readings after the first, and the cycles that ended since then. */
    uint64_t reads;
    uint64_t ended;
    /* The heap's numbers at the last reading. */
    rheap_stats last;
    /* Of the cycle that is on: the epoch, the reading, the words used and the number of the last
       store at its begin, and the most units that it spent from one reading to the next. */
    uint64_t epoch;
    uint64_t began;
    uint64_t used;
    uint64_t number;
    uint64_t most;
    /* 1 where a cycle is on whose begin was read, and else 0. */
    uint8_t running;
    /* 1 from the first reading on. */
    uint8_t begun;
} rheap_cycle_reader;

/* A reader before its first reading. It initialises alone, as RHEAP_INIT does. */
#ifdef __cplusplus
#define RHEAP_CYCLE_READER_INIT {}
#else
#define RHEAP_CYCLE_READER_INIT { 0 }
#endif

/* The numbers of a cycle that ended. All are 0 where none did. */
typedef struct rheap_ended_cycle {
    /* Which one it is of those that ended since the first reading, from 1. */
    uint64_t number;
    /* The epoch at its begin. */
    uint64_t epoch;
    /* The readings at which it began and ended: the first one after the reader's first is 1. */
    uint64_t began;
    uint64_t ended;
    /* The words that were used when it began, those that are used once it ended, and those that it
       freed: the words used just before its end, less those after it. */
    uint64_t used;
    uint64_t live;
    uint64_t freed;
    /* The objects that it kept. */
    uint64_t objects;
    /* The units that allocated words granted, those that stores paid or a collection added, those
       that were spent, and the most that were spent from one reading to the next. */
    uint64_t granted;
    uint64_t idle;
    uint64_t spent;
    uint64_t most;
    /* The stores in it. */
    uint64_t logged;
    /* The words of the space once it ended. */
    uint64_t words;
    /* 1 where it ended with a flip, as all cycles of these calls do, and else 0. */
    uint8_t flipped;
    /* 1 where a cycle ended, and else 0. */
    uint8_t is;
} rheap_ended_cycle;

/* Whether a heap has too few words: what rheap_short tells. */
enum {
    /* It has enough. A heap of fixed sizes says so always. */
    RHEAP_AMPLE = 0,
    /* It may have no more words: it has at_most. */
    RHEAP_AT_MOST = 1,
    /* Memory for more words was refused. It asks again after its next cycle. */
    RHEAP_REFUSED = 2
};

/* How a heap grows, and what else it is made with. */
typedef struct rheap_growth {
    /* The words with which it begins; it never has fewer: 8 to at_most, and enough
       for a pace: 8,618 are enough for objects of any size at ratio 32. */
    uint32_t at_least;
    /* The most words that it may have: at most RHEAP_MAX_WORDS. */
    uint32_t at_most;
    /* The words that it gets after a cycle, in percent of those that are used then: 100 to 1,000.
       It gets more where fewer wouldn't be in time. */
    uint32_t factor;
    /* As of rheap_open. */
    uint32_t biggest;
    uint32_t ratio;
    uint32_t owners;
    uint32_t slots;
} rheap_growth;

/* --- Life --- */

/* Opens a heap without objects, whose roots are all nil, in a space of so many words.

   It collects in time where all of these hold:
     - no more than `live` words are reached whenever a cycle begins, one of rheap_collect too;
     - no object has more than `biggest` words, its fields and 2;
     - the epochs aren't spent.
   In time means that no SPACE_FULL comes. Where mark - 2 * biggest is below 1,048,575, no LOG_FULL
   comes either, but of rheap_store_ints and rheap_store_text; rheap_pace tells the mark.

   In a cycle at most `ratio` units of collector work follow each allocated word and each stored
   field, and 5 more each allocation and each store. It takes memory, as the other calls that open
   a heap and rheap_watch_room do, rheap_release, and rheap_resize and rheap_resize_sized where the
   heap gets larger. rheap_dump_into and rheap_draw_into take some while they run. No other call on a
   heap of fixed sizes does.

   Mind the order: words, live, biggest, ratio, owners, slots. All are of one type, so no compiler
   finds two of them swapped. rheap_open_sized leaves out `live` alone.
   DONE, IS_OPEN, NO_PACE, BAD_SIZES, NO_MEMORY. */
uint8_t rheap_open(rheap *heap, uint32_t words, uint32_t live, uint32_t biggest, uint32_t ratio,
                   uint32_t owners, uint32_t slots);

/* As rheap_open, where no bound is known of what lives: as much of the space may live as the ratio
   allows. That is words - 2 * mark, with the mark that rheap_pace tells. Of a space that is large
   beside `biggest`, it is about 45, 68, 83 and 91 percent at ratios 8, 16, 32 and 64.
   DONE, IS_OPEN, NO_PACE, BAD_SIZES, NO_MEMORY. */
uint8_t rheap_open_sized(rheap *heap, uint32_t words, uint32_t biggest, uint32_t ratio,
                         uint32_t owners, uint32_t slots);

/* Gives a heap of fixed sizes so many words, in place and at any moment, in a cycle too. Objects,
   roots and tickets stay as they are. The pace is chosen anew, as rheap_open chooses it, at the ratio
   that the heap has: so no more than `live` words are to be reached from then on whenever a cycle
   begins, and no object is to have more than `biggest` words.

   It collects in time, as rheap_open says, from then on where
     - no cycle is on, and the new mark is free beside the words in use: so it is after a
       rheap_collect that leaves no more than `live` words; or
     - it collected in time with this `live` and `biggest` before, in a cycle too, and has no fewer
       words beside the mark than before.
   Else it does so from the first moment on at which no cycle is on and the mark is free. Until then
   calls may be SPACE_FULL or LOG_FULL.

   It takes memory only where the heap gets more words or a longer log than it has. Fewer words give
   none back by themselves: rheap_release does, of one space at a call. After all statuses but DONE
   nothing has changed. The first of these that holds is answered: NOT_OPEN, GROWS, NO_PACE,
   BAD_SIZES, where the words aren't 8 to RHEAP_MAX_WORDS, IN_USE, NO_MEMORY. Less may be in use
   after rheap_collect, and the log is empty then.
   DONE, NO_PACE, BAD_SIZES, NO_MEMORY, NOT_OPEN, IN_USE, GROWS. */
uint8_t rheap_resize(rheap *heap, uint32_t words, uint32_t live, uint32_t biggest);

/* The same, where the pace is chosen as rheap_open_sized does: as much of the space may live as the
   ratio allows, words - 2 * mark. Of the two cases the first alone is meant: no `live` is named.
   DONE, NO_PACE, BAD_SIZES, NO_MEMORY, NOT_OPEN, IN_USE, GROWS. */
uint8_t rheap_resize_sized(rheap *heap, uint32_t words, uint32_t biggest);

/* Opens a heap that grows. It begins with 40,000 words, or with at_most where that is less. After
   each cycle it should have twice the words that are used then, at least those that it began with,
   more where fewer wouldn't be in time, and at most at_most. Where it has fewer it gets these, and
   where it has more than twice as many it keeps twice as many. Fewer words give no memory back by
   themselves: rheap_release does, of one space at a call.

   It collects in time, as rheap_open says, however many words live, as long as rheap_short tells
   RHEAP_AMPLE: if the program makes no object of more than biggest words, each finds room, but for
   the epochs. Where memory for more words is refused, nothing fails for that: the heap goes on with
   the words that it has, and asks again after its next cycle. All calls on a handle but rheap_resize
   and rheap_resize_sized work as on a heap of fixed sizes. Those that end a cycle take memory then:
   rheap_alloc and the like, stores, rheap_collect, rheap_increment.

   DONE, IS_OPEN, BAD_GROWTH, NO_PACE, BAD_SIZES, NO_MEMORY. */
uint8_t rheap_open_growing(rheap *heap, uint32_t at_most, uint32_t biggest, uint32_t ratio,
                           uint32_t owners, uint32_t slots);

/* The same, with all that a growth has. */
uint8_t rheap_open_growth(rheap *heap, const rheap_growth *growth);

/* Closes the heap, and frees its memory. The handle may be opened again. DONE, NOT_OPEN. */
uint8_t rheap_close(rheap *heap);

/* --- Objects --- */

/* The root `dst` names a new object of so many fields, all nil. In a cycle at most
   ratio * (fields + 2) + 5 units follow; none follow outside.
   DONE, NO_ROOT, NOT_YOURS, FIELDS_RANGE, SPACE_FULL, NOT_OPEN. */
uint8_t rheap_alloc(rheap *heap, uint32_t owner, rheap_root_id dst, uint32_t fields);

/* The same of a raw object: its fields hold nil and numbers alone. */
uint8_t rheap_alloc_raw(rheap *heap, uint32_t owner, rheap_root_id dst, uint32_t fields);

/* The root `dst` names a new object of so many fields, which take the values, from the first field
   on, as many as `length` says: all of them, or nothing is done. Fields past them are nil. So a pair
   goes to the front of a list by

       rheap_init pair[] = {rheap_of_int(7), rheap_of_root(list)};
       status = rheap_make(&heap, owner, list, 2, pair, 2);

   since what a root holds is read before `dst` is written. If no value names `dst`, it is
   rheap_alloc and a store for each value. In a cycle the work of all of them follows: at most
   ratio * (fields + 2 + length) + 5 units; none follow outside. More than 8 values take 1 KiB of the
   stack, and more than 64 take 64 KiB.

   NOT_OPEN comes first, then FIELDS_RANGE for too many values, and BAD_KIND. Then comes what the
   allocation asks, then what the store of each value asks, in their order, and then the limits:
   LOG_FULL comes where a cycle is on and the log has fewer places left than there are values.
   DONE, NO_ROOT, NOT_YOURS, NO_FIELD, RAW_FIELD (of rheap_make_raw alone), INT_RANGE, FIELDS_RANGE,
   SPACE_FULL, LOG_FULL, NUMBERS_SPENT, BAD_KIND, NOT_OPEN. */
uint8_t rheap_make(rheap *heap, uint32_t owner, rheap_root_id dst, uint32_t fields,
                   const rheap_init *values, size_t length);

/* The same of a raw object. A root among the values has to hold nil or a number: else RAW_FIELD. */
uint8_t rheap_make_raw(rheap *heap, uint32_t owner, rheap_root_id dst, uint32_t fields,
                       const rheap_init *values, size_t length);

/* --- Fields, counted from 0 --- */

/* The root `dst` takes the value of a field of the object that `src` names; `value` tells it. Both
   may be one root.
   DONE, NO_ROOT, NOT_YOURS, NOT_OBJECT, NO_FIELD, NOT_OPEN. */
uint8_t rheap_load(rheap *heap, uint32_t owner, rheap_root_id dst, rheap_root_id src,
                   uint32_t field, rheap_value *value);

/* The same where the value isn't looked at: none is told, in fewer instructions.
   DONE, NO_ROOT, NOT_YOURS, NOT_OBJECT, NO_FIELD, NOT_OPEN. */
uint8_t rheap_load_untold(rheap *heap, uint32_t owner, rheap_root_id dst, rheap_root_id src,
                          uint32_t field);

/* A field of the object that `object` names becomes nil, takes a whole number, or takes what the
   root `src` holds. In a cycle at most ratio + 5 units follow; none follow outside.
   DONE, NO_ROOT, NOT_YOURS, NOT_OBJECT, NO_FIELD, RAW_FIELD (of rheap_store_root alone), INT_RANGE
   (of rheap_store_int alone), LOG_FULL, NUMBERS_SPENT, NOT_OPEN. */
uint8_t rheap_store_nil(rheap *heap, uint32_t owner, rheap_root_id object, uint32_t field);
uint8_t rheap_store_int(rheap *heap, uint32_t owner, rheap_root_id object, uint32_t field,
                        int64_t number);
uint8_t rheap_store_root(rheap *heap, uint32_t owner, rheap_root_id object, uint32_t field,
                         rheap_root_id src);

/* --- Fields in a row, from `from` on --- */

/* The fields take whole numbers, as many as `length` says: all of them or none. It is the list of
   their stores, in a fraction of the time where no cycle is on. In a cycle at most ratio + 5 units
   follow each number; none follow outside. Length 0 changes nothing, and is DONE.

   The first refusal of these stores is answered, in their order: NO_ROOT, NOT_YOURS, NOT_OBJECT,
   NO_FIELD or INT_RANGE. Then comes LOG_FULL, where a cycle is on and the log has fewer places left
   than there are numbers: rheap_insist_store_ints collects then. Last comes NUMBERS_SPENT.
   DONE, NO_ROOT, NOT_YOURS, NOT_OBJECT, NO_FIELD, INT_RANGE, LOG_FULL, NUMBERS_SPENT, NOT_OPEN. */
uint8_t rheap_store_ints(rheap *heap, uint32_t owner, rheap_root_id object, uint32_t from,
                         const int64_t *numbers, size_t length);

/* The whole numbers of the fields are read: as many as `length` says, or up to the first field that
   holds none. `count` tells how many were read; what is behind them in `numbers` stays. It reads
   the heap alone, and does no collector work. Length 0 reads nothing, and is DONE.

   Each of `length` fields must be there. After a refusal `numbers` is as it was, and `count` is 0.
   DONE, NO_ROOT, NOT_YOURS, NOT_OBJECT, NO_FIELD, NOT_OPEN. */
uint8_t rheap_load_ints(rheap *heap, uint32_t owner, rheap_root_id object, uint32_t from,
                        int64_t *numbers, size_t length, uint32_t *count);

/* The fields take the bytes of a text, `length` of them: all or none. A field takes seven bytes as
   a number, the first one as its lowest eight bits; the last field has zeros behind them. So they
   are rheap_text_fields(length) numbers, stored as by rheap_store_ints: in a cycle at most
   ratio + 5 units follow each of them; none follow outside. A text doesn't say how long it is: keep
   its length, say in the field before it.

   It is refused as rheap_store_ints is, but no number is out of range. A text of more bytes than an
   object has fields for is NO_FIELD. After LOG_FULL rheap_insist_store_text collects.
   DONE, NO_ROOT, NOT_YOURS, NOT_OBJECT, NO_FIELD, LOG_FULL, NUMBERS_SPENT, NOT_OPEN. */
uint8_t rheap_store_text(rheap *heap, uint32_t owner, rheap_root_id object, uint32_t from,
                         const void *text, size_t length);

/* The bytes that the fields hold are read: `length` of them, or those of the fields before the
   first that holds no number. `count` tells how many were read; what is behind them in `text`
   stays. Of a number its lowest 56 bits are read. It reads the heap alone, and does no collector
   work. Length 0 reads nothing, and is DONE.

   Each of the fields that `length` bytes take must be there. After a refusal `text` is as it was,
   and `count` is 0.
   DONE, NO_ROOT, NOT_YOURS, NOT_OBJECT, NO_FIELD, NOT_OPEN. */
uint8_t rheap_load_text(rheap *heap, uint32_t owner, rheap_root_id object, uint32_t from,
                        void *text, size_t length, uint32_t *count);

/* --- Roots and values in a row, and paths --- */

/* Each of these calls is a list of commands, done one after the other up to the first that is
   refused, as if the program made a call for each. `count` tells how many were done; they stay
   done. The status is that of the refusal, and DONE where none was refused. Length 0 does nothing,
   and is DONE. */

/* The roots from `first` on take the fields from `from` on of the object that `src` names: as many
   as `length` says. `values` tells the value of each field that was loaded; what is behind them
   stays. If `src` is one of these roots, the fields behind its own are those of the object that it
   then names: let it be none of them, or the last.
   DONE, NO_ROOT, NOT_YOURS, NOT_OBJECT, NO_FIELD, NOT_OPEN. */
uint8_t rheap_load_roots(rheap *heap, uint32_t owner, rheap_root_id first, rheap_root_id src,
                         uint32_t from, rheap_value *values, size_t length, size_t *count);

/* The same where the values aren't looked at: none is told, in fewer instructions.
   DONE, NO_ROOT, NOT_YOURS, NOT_OBJECT, NO_FIELD, NOT_OPEN. */
uint8_t rheap_load_roots_untold(rheap *heap, uint32_t owner, rheap_root_id first,
                                rheap_root_id src, uint32_t from, size_t length, size_t *count);

/* The fields from `from` on of the object that `object` names take these values, as many as `length`
   says: nil, numbers and what roots hold, in any order. In a cycle at most ratio + 5 units follow
   each store; none follow outside. After LOG_FULL rheap_insist_store_row stores them. Where one is
   of none of the kinds, it is BAD_KIND, and nothing is stored.
   DONE, NO_ROOT, NOT_YOURS, NOT_OBJECT, NO_FIELD, RAW_FIELD, INT_RANGE, LOG_FULL, NUMBERS_SPENT,
   BAD_KIND, NOT_OPEN. */
uint8_t rheap_store_row(rheap *heap, uint32_t owner, rheap_root_id object, uint32_t from,
                        const rheap_init *values, size_t length, size_t *count);

/* The fields from `from` on of the object that `object` names take what the roots from `first` on
   hold: as many as `length` says. In a cycle at most ratio + 5 units follow each store; none follow
   outside. After LOG_FULL rheap_insist_store_roots stores them.
   DONE, NO_ROOT, NOT_YOURS, NOT_OBJECT, NO_FIELD, RAW_FIELD, LOG_FULL, NUMBERS_SPENT, NOT_OPEN. */
uint8_t rheap_store_roots(rheap *heap, uint32_t owner, rheap_root_id object, uint32_t from,
                          rheap_root_id first, size_t length, size_t *count);

/* The roots from `first` on become nil, as many as `length` says.
   DONE, NO_ROOT, NOT_YOURS, NOT_OPEN. */
uint8_t rheap_drop_roots(rheap *heap, uint32_t owner, rheap_root_id first, size_t length,
                         size_t *count);

/* Follows a path: the root `dst` takes the first of `fields` of the object that `src` names, then
   the next one of the object that this is, and so on. So with the fields 1 and 0 it takes the second
   item of a list of cells of a value and a rest. `value` tells the last value that was loaded, and
   nil where none was. If `dst` isn't `src`, that root stays.
   DONE, NO_ROOT, NOT_YOURS, NOT_OBJECT, NO_FIELD, NOT_OPEN. */
uint8_t rheap_load_path(rheap *heap, uint32_t owner, rheap_root_id dst, rheap_root_id src,
                        const uint32_t *fields, size_t length, size_t *count, rheap_value *value);

/* --- Roots --- */

/* The root `dst` takes what the root `src` holds. DONE, NO_ROOT, NOT_YOURS, NOT_OPEN. */
uint8_t rheap_copy(rheap *heap, uint32_t owner, rheap_root_id dst, rheap_root_id src);

/* The root becomes nil. DONE, NO_ROOT, NOT_YOURS, NOT_OPEN. */
uint8_t rheap_drop(rheap *heap, uint32_t owner, rheap_root_id root);

/* `same` is 1 where both roots hold the same number, refer to the same object, or are nil, and else
   0. DONE, NO_ROOT, NOT_YOURS, NOT_OPEN. */
uint8_t rheap_same(rheap *heap, uint32_t owner, rheap_root_id a, rheap_root_id b, uint8_t *same);

/* --- With room made first --- */

/* As the call of the same name without insist_. Where there is no room in the space or in the log,
   it collects and tries again, twice at most: each time as rheap_collect. LOG_FULL never comes.
   SPACE_FULL means that what the roots reach and the object don't fit together, unless the epochs
   are spent. Stop at the first: each further try collects twice. */
uint8_t rheap_insist_alloc(rheap *heap, uint32_t owner, rheap_root_id dst, uint32_t fields);
uint8_t rheap_insist_alloc_raw(rheap *heap, uint32_t owner, rheap_root_id dst, uint32_t fields);
uint8_t rheap_insist_make(rheap *heap, uint32_t owner, rheap_root_id dst, uint32_t fields,
                          const rheap_init *values, size_t length);
uint8_t rheap_insist_make_raw(rheap *heap, uint32_t owner, rheap_root_id dst, uint32_t fields,
                              const rheap_init *values, size_t length);
uint8_t rheap_insist_store_nil(rheap *heap, uint32_t owner, rheap_root_id object, uint32_t field);
uint8_t rheap_insist_store_int(rheap *heap, uint32_t owner, rheap_root_id object, uint32_t field,
                               int64_t number);
uint8_t rheap_insist_store_root(rheap *heap, uint32_t owner, rheap_root_id object, uint32_t field,
                                rheap_root_id src);

/* As rheap_store_ints. Where the log has too few places for the numbers, it collects once, as
   rheap_collect, and stores then. LOG_FULL never comes.
   DONE, NO_ROOT, NOT_YOURS, NOT_OBJECT, NO_FIELD, INT_RANGE, NUMBERS_SPENT, NOT_OPEN. */
uint8_t rheap_insist_store_ints(rheap *heap, uint32_t owner, rheap_root_id object, uint32_t from,
                                const int64_t *numbers, size_t length);

/* As rheap_store_text. Where the log has too few places, it collects once, as rheap_collect, and
   stores then. LOG_FULL never comes.
   DONE, NO_ROOT, NOT_YOURS, NOT_OBJECT, NO_FIELD, NUMBERS_SPENT, NOT_OPEN. */
uint8_t rheap_insist_store_text(rheap *heap, uint32_t owner, rheap_root_id object, uint32_t from,
                                const void *text, size_t length);

/* As rheap_store_roots, where each store is as rheap_insist_store_root. LOG_FULL never comes.
   DONE, NO_ROOT, NOT_YOURS, NOT_OBJECT, NO_FIELD, RAW_FIELD, NUMBERS_SPENT, NOT_OPEN. */
uint8_t rheap_insist_store_roots(rheap *heap, uint32_t owner, rheap_root_id object, uint32_t from,
                                 rheap_root_id first, size_t length, size_t *count);

/* As rheap_store_row, where each store is insisted on. LOG_FULL never comes.
   DONE, NO_ROOT, NOT_YOURS, NOT_OBJECT, NO_FIELD, RAW_FIELD, INT_RANGE, NUMBERS_SPENT, BAD_KIND,
   NOT_OPEN. */
uint8_t rheap_insist_store_row(rheap *heap, uint32_t owner, rheap_root_id object, uint32_t from,
                               const rheap_init *values, size_t length, size_t *count);

/* --- The slots of owner 0 by number --- */

/* A program with one owner names no owner: it keeps all its roots in the slots of owner 0, which all
   owners share, and names a slot by its number alone. Each call is the one without shared_ by owner
   0, with the same statuses but NOT_YOURS: in fewer instructions on a heap of fixed sizes, and in as
   many or up to 6 more on one that grows. For the others rheap_slot(0, n) names the root in slot n. */
uint8_t rheap_shared_alloc(rheap *heap, uint32_t dst, uint32_t fields);
uint8_t rheap_shared_alloc_raw(rheap *heap, uint32_t dst, uint32_t fields);
uint8_t rheap_shared_load(rheap *heap, uint32_t dst, uint32_t src, uint32_t field,
                          rheap_value *value);
uint8_t rheap_shared_load_untold(rheap *heap, uint32_t dst, uint32_t src, uint32_t field);
uint8_t rheap_shared_peek(rheap *heap, uint32_t src, uint32_t field, rheap_value *value);
uint8_t rheap_shared_store_nil(rheap *heap, uint32_t object, uint32_t field);
uint8_t rheap_shared_store_int(rheap *heap, uint32_t object, uint32_t field, int64_t number);
uint8_t rheap_shared_store_root(rheap *heap, uint32_t object, uint32_t field, uint32_t src);
uint8_t rheap_shared_copy(rheap *heap, uint32_t dst, uint32_t src);
uint8_t rheap_shared_drop(rheap *heap, uint32_t root);
uint8_t rheap_shared_insist_alloc(rheap *heap, uint32_t dst, uint32_t fields);
uint8_t rheap_shared_insist_alloc_raw(rheap *heap, uint32_t dst, uint32_t fields);
uint8_t rheap_shared_insist_store_nil(rheap *heap, uint32_t object, uint32_t field);
uint8_t rheap_shared_insist_store_int(rheap *heap, uint32_t object, uint32_t field,
                                      int64_t number);
uint8_t rheap_shared_insist_store_root(rheap *heap, uint32_t object, uint32_t field, uint32_t src);

/* --- Reading --- */

/* Reading changes nothing of the heap. But each call, a reading one too, has the handle for itself
   while it runs. So no two run at once on a handle, not even under a lock of readers. */

/* What a root holds. It asks for no owner. DONE, NO_ROOT, NOT_OPEN. */
uint8_t rheap_root(rheap *heap, rheap_root_id root, rheap_value *value);

/* How many fields the object has that the root names. It asks for no owner.
   DONE, NO_ROOT, NOT_OBJECT, NOT_OPEN. */
uint8_t rheap_fields(rheap *heap, rheap_root_id root, uint32_t *fields);

/* What a field holds of the object that the root names, without a root for the value. It asks for
   no owner. DONE, NO_ROOT, NOT_OBJECT, NO_FIELD, NOT_OPEN. */
uint8_t rheap_field(rheap *heap, rheap_root_id root, uint32_t field, rheap_value *value);

/* The same for an owner: it answers as rheap_load.
   DONE, NO_ROOT, NOT_YOURS, NOT_OBJECT, NO_FIELD, NOT_OPEN. */
uint8_t rheap_peek(rheap *heap, uint32_t owner, rheap_root_id src, uint32_t field,
                   rheap_value *value);

/* The words that an object of so many fields needs, and those that are free. SPACE_FULL comes of an
   allocation where more are needed than are free; after it, these are the numbers of the refusal.
   DONE, NOT_OPEN. */
uint8_t rheap_room(rheap *heap, uint32_t fields, rheap_words *room);

/* Whether a heap that grows has had too few words since its last cycle, so that a call may find no
   room: `is` tells RHEAP_AMPLE, RHEAP_AT_MOST or RHEAP_REFUSED. Of a heap of fixed sizes it tells
   RHEAP_AMPLE. DONE, NOT_OPEN. */
uint8_t rheap_short(rheap *heap, uint8_t *is);

/* --- Watching objects --- */

/* A program that keeps something of its own beside an object, such as an open file, has the object
   watched, and keeps what it has by the ticket: a number from 0 on. Once a cycle has ended in which
   no root reached the object any more, rheap_next_gone tells the ticket, once. rheap_collect ends
   one; after two in a row each object is told that no root reached before them. A ticket keeps
   nothing alive, and no call puts its object back into a root.

   An object may have several tickets. A ticket that was told or freed is free, and is given again
   later. Each end of a cycle looks at the tickets up to the greatest number in use: that counts no
   units. So take the room that you need, and free what you need no more. */

/* Makes room for so many tickets more than there are: a new heap has none. It takes 12 bytes for
   each; refused, it changes nothing.
   DONE, TICKETS_RANGE, NO_MEMORY, NOT_OPEN. */
uint8_t rheap_watch_room(rheap *heap, uint32_t additional);

/* Watches the object that the root names now; `ticket` tells the ticket, the free one with the
   least number. So each is less than the room that was made, and can index an array of so many.
   What the root holds later doesn't matter.
   DONE, NO_ROOT, NOT_YOURS, NOT_OBJECT, WATCHES_FULL, NOT_OPEN. */
uint8_t rheap_watch(rheap *heap, uint32_t owner, rheap_root_id root, uint64_t *ticket);

/* Frees a ticket that watches an object, which isn't told then. Where the object is gone already,
   and that wasn't told yet, it is NOT_WATCHED, and rheap_next_gone tells it.
   DONE, NOT_WATCHED, NOT_OPEN. */
uint8_t rheap_unwatch(rheap *heap, uint64_t ticket);

/* The next ticket whose object is gone: `is` is 1, `ticket` tells it, and it is free from then on.
   Where there is none, both are 0. They come in the order of cycles, and of one cycle in that of
   their numbers. DONE, NOT_OPEN. */
uint8_t rheap_next_gone(rheap *heap, uint64_t *ticket, uint8_t *is);

/* --- The collector --- */

/* Collects at once: a cycle begins where none is on, and ends. Where none was on, only what the
   roots reach is left. Where one was on, more may be; a second call leaves only that. It spends at
   most 6 units, and 3 for each of these: a word in use that isn't yet copied, a field of a placed
   object that isn't yet handed on, and a store that the log holds and no increment looked at. Where
   no cycle was on, that is 3 for each word in use, and 6.
   DONE, EPOCHS_SPENT, NOT_OPEN. */
uint8_t rheap_collect(rheap *heap);

/* One increment of collector work, of at most 5 units. It begins a cycle that is due.
   DONE, NOT_OPEN. */
uint8_t rheap_increment(rheap *heap);

/* The numbers of the heap. DONE, NOT_OPEN. */
uint8_t rheap_stat(rheap *heap, rheap_stats *stats);

/* What the last increment or collection did; all 0 before the first. DONE, NOT_OPEN. */
uint8_t rheap_last_did(rheap *heap, rheap_did *did);

/* The pace of the heap. DONE, NOT_OPEN. */
uint8_t rheap_pace(rheap *heap, rheap_pacing *pacing);

/* Reads the heap once more: where a cycle ended since the last reading, `cycle` tells its numbers,
   and else all 0. The first reading of a reader tells none: a cycle that is on then isn't told at its
   end, but counts. Nothing of the heap changes, and it costs no more for being read.

   Read after each call that may end a cycle: an allocation, a store, rheap_collect or
   rheap_increment. Where two ended since the last reading, or other work was done since the end of
   one, none is told, but they count: `number` of the next one shows it. What was done in between is
   taken for one call: the words that were allocated and the most units that were spent.
   DONE, NOT_OPEN: the reader is as it was then. */
uint8_t rheap_cycle(rheap *heap, rheap_cycle_reader *reader, rheap_ended_cycle *cycle);

/* Gives memory back that a heap keeps for its next cycle alone: of two spaces, the one that holds no
   object outside a cycle. A new block is taken for it, whose pages the system makes once they are
   written, and the old one is freed. After the next cycle it is the other one's turn. Do so where
   the program waits, say, or after much of what lived is gone.

   CYCLE_ON comes exactly where a cycle is on: rheap_collect ends it. Where the new block is refused,
   the old one stays. Nothing that can be read changes.
   DONE, CYCLE_ON, NO_MEMORY, NOT_OPEN. */
uint8_t rheap_release(rheap *heap);

/* --- What a heap looks like --- */

/* Each of these calls tells a text whole, at the start of `text`, or not at all: it is TOO_LONG where
   it has more bytes than `length`. `needs` tells how many it has, after both. After all others `text`
   is as it was, and `needs` is 0. Behind the text nothing is written, no zero either.

   rheap_dump and rheap_draw, below, are the same calls, and take a null pointer too. So ask for the
   bytes first, and then for the text: as long as no other call is made, it stays the same.

   They take memory while they run, for the text and for what they note of the heap. Where it is
   refused, nothing has changed. They do no collector work. */

/* What the roots reach, as `rheap run` answers the line `dump`: lines of roots and of objects, which
   are numbered breadth first, from the roots on. The same graph has the same text, wherever its
   objects are. `rheap dump` reads it, and makes a snapshot for a viewer of it, or a picture.
   DONE, TOO_LONG, NO_MEMORY, NOT_OPEN. */
uint8_t rheap_dump_into(rheap *heap, void *text, size_t length, size_t *needs);

/* A picture of the heap in SVG, as it stands: roots, objects with their addresses, and in a cycle the
   copies and the log. If more than 4,096 words are used, or there are more than 300 objects, roots or
   entries of the log, it shows bars alone. The same heap has the same picture.
   DONE, TOO_LONG, NO_MEMORY, NOT_OPEN. */
uint8_t rheap_draw_into(rheap *heap, void *text, size_t length, size_t *needs);

/* --- Whole traces --- */

/* A trace is a text whose first line makes a heap; each further line is something to do, and is
   answered. `rheap run --help` has the language. A call runs a trace on a new heap, and keeps
   nothing of it. It needs no handle, and several threads may make such calls at once.

   `trace` has as many bytes as `trace_length` says, and `answers` has room for `answers_length`. A
   call takes memory for the heap, 32 bytes for each of its words and for each entry of its log that
   is used, for the lines of the trace, and for the text; it frees all of it. It returns after the
   last line, however long that takes: a trace has at most 1,048,576 lines. */

/* The statuses of these two calls. They aren't those above, and rheap_name doesn't name them. */
enum {
    /* `answers` begins with the text, and is as it was behind it; `length` tells its bytes. */
    RHEAP_RUN_DONE = 0,
    /* The trace has a fault, or no pace keeps up with it. `answers` is as it was, `length` is 0. */
    RHEAP_RUN_FAULT = 1,
    /* Memory was refused. `answers` is as it was, and `length` is 0. */
    RHEAP_RUN_NO_MEMORY = 3,
    /* `answers` is too small for the text, and as it was; `length` tells the bytes that are due. */
    RHEAP_RUN_NO_ROOM = 5
};

/* Runs a trace that drives its cycles itself, or has none. The text is what `rheap run` prints: a
   line for each answer, and the total line. A refused line is an answer.
   RUN_DONE, RUN_FAULT, RUN_NO_MEMORY, RUN_NO_ROOM. */
uint8_t rheap_run(const uint8_t *trace, size_t trace_length, uint8_t *answers,
                  size_t answers_length, size_t *length);

/* Runs a trace of commands alone, on a heap that collects by itself. The text is what `rheap run
   --paced --mark N` prints, with `mark` for N: a cycle begins where fewer words are free. With 0 it
   is what `rheap run --paced` prints, which takes the lowest mark that keeps up. No mark stands for
   `--mark 0`, at which no cycle begins.
   RUN_DONE, RUN_FAULT, RUN_NO_MEMORY, RUN_NO_ROOM. */
uint8_t rheap_run_paced(const uint8_t *trace, size_t trace_length, uint32_t mark,
                        uint8_t *answers, size_t answers_length, size_t *length);

/* --- What needs no export. It is not proved. --- */

/* The root of an owner's slot. */
static inline rheap_root_id rheap_slot(uint32_t owner, uint32_t slot) {
    rheap_root_id root;
    root.owner = owner;
    root.slot = slot;
    return root;
}

/* A value that a call is given: nil, a whole number, or what a root holds. */
static inline rheap_init rheap_of_nil(void) {
    rheap_init value;
    value.kind = RHEAP_NIL;
    value.root = rheap_slot(0, 0);
    value.number = 0;
    return value;
}
static inline rheap_init rheap_of_int(int64_t number) {
    rheap_init value = rheap_of_nil();
    value.kind = RHEAP_NUMBER;
    value.number = number;
    return value;
}
static inline rheap_init rheap_of_root(rheap_root_id root) {
    rheap_init value = rheap_of_nil();
    value.kind = RHEAP_OBJECT;
    value.root = root;
    return value;
}

/* rheap_dump_into and rheap_draw_into, where `buffer` may be null: then there is room for no byte, and
   only `length` is told. */
static inline uint8_t rheap_dump(rheap *heap, char *buffer, size_t capacity, size_t *length) {
    char none;
    return buffer ? rheap_dump_into(heap, buffer, capacity, length)
                  : rheap_dump_into(heap, &none, 0, length);
}
static inline uint8_t rheap_draw(rheap *heap, char *buffer, size_t capacity, size_t *length) {
    char none;
    return buffer ? rheap_draw_into(heap, buffer, capacity, length)
                  : rheap_draw_into(heap, &none, 0, length);
}

/* The name of a status, without its prefix. */
static inline const char *rheap_name(uint8_t status) {
    static const char *const names[] = {
        "DONE",       "NO_ROOT",       "NOT_YOURS",    "NOT_OBJECT", "NO_FIELD",      "RAW_FIELD",
        "INT_RANGE",  "FIELDS_RANGE",  "SPACE_FULL",   "LOG_FULL",   "NUMBERS_SPENT", "EPOCHS_SPENT",
        "NOT_OPEN",   "IS_OPEN",       "NO_PACE",      "BAD_SIZES",  "NO_MEMORY",     "WATCHES_FULL",
        "NOT_WATCHED", "TICKETS_RANGE", "BAD_KIND",     "BAD_GROWTH",
        "TOO_LONG",   "CYCLE_ON",      "IN_USE",       "GROWS"};
    return status <= RHEAP_GROWS ? names[status] : "UNKNOWN";
}

/* Slots of one owner that are used as a stack: rheap_push takes the next one, and rheap_pop_to
   makes those from a mark on nil. A function remembers `top`, pushes what it needs, and pops to
   what it remembered. Past the last slot of the owner, calls on the root answer NO_ROOT.

   `rheap_scope scope = { &heap, owner, first };` makes one whose first slot is `first`. Nothing
   sees that two scopes of one owner overlap: give each slots of its own. Owner 0's slots are
   everybody's. */
typedef struct rheap_scope {
    rheap *heap;
    uint32_t owner;
    uint32_t top;
} rheap_scope;

/* The next slot. Its value is what it was left with: nil, where it was popped or never used. Push
   in a statement of its own: two pushes among the arguments of one call have no order. */
static inline rheap_root_id rheap_push(rheap_scope *scope) {
    return rheap_slot(scope->owner, scope->top++);
}

/* Makes the slots from `mark` on nil, and takes them back. The first status that isn't DONE, which
   is NO_ROOT where a slot was pushed that the owner hasn't. */
static inline uint8_t rheap_pop_to(rheap_scope *scope, uint32_t mark) {
    uint8_t first = RHEAP_DONE;
    while (scope->top > mark) {
        uint8_t status;
        scope->top--;
        status = rheap_drop(scope->heap, scope->owner, rheap_slot(scope->owner, scope->top));
        if (first == RHEAP_DONE) {
            first = status;
        }
    }
    return first;
}

#ifdef __cplusplus
#define RHEAP_CAST(type, what) static_cast<type>(what)
#else
#define RHEAP_CAST(type, what) ((type)(what))
#endif

/* How many fields a text of so many bytes takes. If that is more than an object has, it is
   RHEAP_MAX_FIELDS + 1: rheap_alloc_raw then answers FIELDS_RANGE. */
static inline uint32_t rheap_text_fields(size_t length) {
    return length > 7 * RHEAP_MAX_FIELDS ? RHEAP_MAX_FIELDS + 1
                                         : RHEAP_CAST(uint32_t, (length + 6) / 7);
}

#undef RHEAP_CAST

#ifdef __cplusplus
}
#endif

#endif
