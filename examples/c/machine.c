/* A stack machine whose frames, lists and texts are objects of a managed heap: a start for a runtime
   of your own. Its programs count, turn a list round, build a text, call deeper than an owner has
   slots, and run out of memory, which the machine survives.

   A frame is an object: the frame that called it, where to go on there, how high its stack is, and
   then its locals and its stack. A register of the machine is a root slot. So the collector sees all
   that the machine uses, and no variable of this file is wrong once objects have moved. */
#include "rheap.h"
#include <stdio.h>
#include <stdlib.h>
#include <string.h>

/* The owner of the registers. Owner 0 is there too, for what several owners share. */
#define MACHINE 1

/* The registers: the frame that runs, an object that isn't whole yet, and two values at hand. */
enum { FRAME, NEW, A, B, REGISTERS };

/* The fields of a frame. From LOCALS on it has the locals, the parameters first, and the stack. */
enum { CALLER, GO_ON, HEIGHT, LOCALS };

/* A cell of a list: its first value, and the list of the others. */
enum { HEAD, TAIL, CELL };

/* A text is a raw object: how many bytes it has in field 0, and then the bytes. */
#define LONGEST 4096

typedef enum {
    PUSH,     /* a number: its operand */
    NIL,      /* nil */
    TEXT,     /* a text: that of its operand's number */
    GET,      /* the local of its operand's number */
    SET,      /* pops the top into that local */
    ADD,      /* two numbers for their sum */
    LESS,     /* two numbers for 1 if the first is less, and else 0 */
    CONS,     /* a value and a list for the list with the value in front */
    FIRST,    /* a list for its first value */
    REST,     /* a list for the list of the others */
    IS_NIL,   /* a value for 1 if it is nil, and else 0 */
    JOIN,     /* two texts for one */
    JUMP,     /* goes on at its operand */
    JUMP_IF,  /* pops a number, and goes on at its operand if it isn't 0 */
    CALL,     /* a function's parameters for what it returns */
    RETURN,   /* ends the function, which returns the top */
    PRINT     /* pops the top, and prints it */
} opcode;

typedef struct {
    opcode op;
    int64_t operand;
} instruction;

typedef struct {
    const instruction *code;
    uint32_t parameters;
    /* The parameters and the other locals. */
    uint32_t locals;
    /* The most values that its stack has. */
    uint32_t stack;
} function;

typedef struct {
    rheap heap;
    const function *functions;
    const char *const *texts;
    /* Which instruction of the program is next: 1,000 times the function and the place in it. */
    int64_t at;
    /* The field of the frame above the top of its stack. */
    uint32_t height;
} machine;

/* A call of this machine answers NULL, or what is wrong. */
typedef const char *fault;

/* Answers what is wrong where a call on the heap wasn't done. */
#define HEAP(call)                                                                                 \
    do {                                                                                           \
        uint8_t status_ = (call);                                                                  \
        if (status_ != RHEAP_DONE) {                                                               \
            return rheap_name(status_);                                                            \
        }                                                                                          \
    } while (0)

/* The same of a call of the machine. */
#define TRY(call)                                                                                  \
    do {                                                                                           \
        fault fault_ = (call);                                                                     \
        if (fault_ != NULL) {                                                                      \
            return fault_;                                                                         \
        }                                                                                          \
    } while (0)

static rheap_root_id reg(uint32_t slot) {
    return rheap_slot(MACHINE, slot);
}

/* --- The stack of the frame that runs. The collecting calls are those of insist: they find room
   wherever what the registers reach leaves any. --- */

static fault push_int(machine *m, int64_t number) {
    HEAP(rheap_insist_store_int(&m->heap, MACHINE, reg(FRAME), m->height, number));
    m->height++;
    return NULL;
}

static fault push(machine *m, uint32_t from) {
    HEAP(rheap_insist_store_root(&m->heap, MACHINE, reg(FRAME), m->height, reg(from)));
    m->height++;
    return NULL;
}

/* A field that was popped keeps its value until the next push there: it may keep an object alive for
   a while, and is no mistake. */
static fault pop(machine *m, uint32_t into) {
    m->height--;
    HEAP(rheap_load_untold(&m->heap, MACHINE, reg(into), reg(FRAME), m->height));
    return NULL;
}

/* The same where the machine looks at the value. */
static fault pop_value(machine *m, uint32_t into, rheap_value *value) {
    m->height--;
    HEAP(rheap_load(&m->heap, MACHINE, reg(into), reg(FRAME), m->height, value));
    return NULL;
}

/* A number in a field of the frame that runs. */
static fault frame_int(machine *m, uint32_t field, int64_t *number) {
    rheap_value value;
    *number = 0;
    HEAP(rheap_peek(&m->heap, MACHINE, reg(FRAME), field, &value));
    *number = value.number;
    return value.kind == RHEAP_NUMBER ? NULL : "not a number";
}

static fault pop_int(machine *m, int64_t *number) {
    m->height--;
    return frame_int(m, m->height, number);
}

/* --- Texts --- */

/* The register takes a new text. It is made whole in NEW, and reached by others only then. */
static fault make_text(machine *m, uint32_t into, const char *bytes, size_t length) {
    HEAP(rheap_insist_alloc_raw(&m->heap, MACHINE, reg(NEW), 1 + rheap_text_fields(length)));
    HEAP(rheap_insist_store_int(&m->heap, MACHINE, reg(NEW), 0, (int64_t)length));
    HEAP(rheap_insist_store_text(&m->heap, MACHINE, reg(NEW), 1, bytes, length));
    HEAP(rheap_copy(&m->heap, MACHINE, reg(into), reg(NEW)));
    return NULL;
}

/* Puts the bytes of the register's text behind those that are there. */
static fault read_text(machine *m, uint32_t from, char *bytes, size_t *length) {
    rheap_value value;
    uint32_t count;
    HEAP(rheap_root(&m->heap, reg(from), &value));
    if (value.kind != RHEAP_RAW) {
        return "not a text";
    }
    HEAP(rheap_peek(&m->heap, MACHINE, reg(from), 0, &value));
    if (*length + (size_t)value.number > LONGEST) {
        return "too long a text";
    }
    HEAP(rheap_load_text(&m->heap, MACHINE, reg(from), 1, bytes + *length, (size_t)value.number,
                         &count));
    *length += count;
    return NULL;
}

/* Prints the value in A, which it changes: of a list its values, and what is no number by two dots. */
static fault print(machine *m, rheap_value value) {
    char bytes[LONGEST];
    size_t length = 0;
    const char *before = "(";
    if (value.kind == RHEAP_NUMBER) {
        printf("%ld", (long)value.number);
    } else if (value.kind == RHEAP_RAW) {
        TRY(read_text(m, A, bytes, &length));
        fwrite(bytes, 1, length, stdout);
    } else {
        while (value.kind == RHEAP_OBJECT) {
            HEAP(rheap_peek(&m->heap, MACHINE, reg(A), HEAD, &value));
            if (value.kind == RHEAP_NUMBER) {
                printf("%s%ld", before, (long)value.number);
            } else {
                printf("%s..", before);
            }
            before = " ";
            HEAP(rheap_load(&m->heap, MACHINE, reg(A), reg(A), TAIL, &value));
        }
        printf("%s)", before[0] == '(' ? before : "");
    }
    printf("\n");
    return NULL;
}

/* --- Calls --- */

/* Makes a frame, in NEW. */
static fault make_frame(machine *m, const function *f) {
    HEAP(rheap_insist_alloc(&m->heap, MACHINE, reg(NEW), LOCALS + f->locals + f->stack));
    return NULL;
}

/* Pops the parameters into a new frame, which runs then. */
static fault call(machine *m, int64_t number) {
    const function *f = &m->functions[number];
    uint32_t left;
    TRY(make_frame(m, f));
    for (left = f->parameters; left > 0; left--) {
        TRY(pop(m, A));
        HEAP(rheap_insist_store_root(&m->heap, MACHINE, reg(NEW), LOCALS + left - 1, reg(A)));
    }
    HEAP(rheap_insist_store_root(&m->heap, MACHINE, reg(NEW), CALLER, reg(FRAME)));
    HEAP(rheap_insist_store_int(&m->heap, MACHINE, reg(FRAME), GO_ON, m->at));
    HEAP(rheap_insist_store_int(&m->heap, MACHINE, reg(FRAME), HEIGHT, m->height));
    HEAP(rheap_copy(&m->heap, MACHINE, reg(FRAME), reg(NEW)));
    m->at = 1000 * number;
    m->height = LOCALS + f->locals;
    return NULL;
}

/* Goes back to the caller, with the value in A on its stack. `ended` is 1 if there is none. */
static fault go_back(machine *m, int *ended) {
    rheap_value value;
    int64_t height;
    HEAP(rheap_load(&m->heap, MACHINE, reg(FRAME), reg(FRAME), CALLER, &value));
    *ended = value.kind == RHEAP_NIL;
    if (*ended) {
        return NULL;
    }
    TRY(frame_int(m, GO_ON, &m->at));
    TRY(frame_int(m, HEIGHT, &height));
    m->height = (uint32_t)height;
    return push(m, A);
}

/* --- Instructions --- */

/* Does one instruction. `ended` is 1 once the first function has returned. */
static fault step(machine *m, instruction next, int *ended) {
    char bytes[LONGEST];
    size_t length = 0;
    rheap_init cell[CELL];
    rheap_value value;
    int64_t a;
    int64_t b;
    switch (next.op) {
    case PUSH:
        return push_int(m, next.operand);
    case NIL:
        HEAP(rheap_insist_store_nil(&m->heap, MACHINE, reg(FRAME), m->height));
        m->height++;
        return NULL;
    case TEXT:
        TRY(make_text(m, A, m->texts[next.operand], strlen(m->texts[next.operand])));
        return push(m, A);
    case GET:
        HEAP(rheap_load_untold(&m->heap, MACHINE, reg(A), reg(FRAME),
                               LOCALS + (uint32_t)next.operand));
        return push(m, A);
    case SET:
        TRY(pop(m, A));
        HEAP(rheap_insist_store_root(&m->heap, MACHINE, reg(FRAME),
                                     LOCALS + (uint32_t)next.operand, reg(A)));
        return NULL;
    case ADD:
        TRY(pop_int(m, &b));
        TRY(pop_int(m, &a));
        return push_int(m, a + b);
    case LESS:
        TRY(pop_int(m, &b));
        TRY(pop_int(m, &a));
        return push_int(m, a < b);
    case CONS:
        TRY(pop(m, B));
        TRY(pop(m, A));
        cell[HEAD] = rheap_of_root(reg(A));
        cell[TAIL] = rheap_of_root(reg(B));
        HEAP(rheap_insist_make(&m->heap, MACHINE, reg(A), CELL, cell, CELL));
        return push(m, A);
    case FIRST:
    case REST:
        /* What is no list is told by the heap: NOT_OBJECT. */
        TRY(pop(m, A));
        HEAP(rheap_load_untold(&m->heap, MACHINE, reg(A), reg(A), next.op == FIRST ? HEAD : TAIL));
        return push(m, A);
    case IS_NIL:
        TRY(pop_value(m, A, &value));
        return push_int(m, value.kind == RHEAP_NIL);
    case JOIN:
        TRY(pop(m, B));
        TRY(pop(m, A));
        TRY(read_text(m, A, bytes, &length));
        TRY(read_text(m, B, bytes, &length));
        TRY(make_text(m, A, bytes, length));
        return push(m, A);
    case JUMP:
        m->at = m->at / 1000 * 1000 + next.operand;
        return NULL;
    case JUMP_IF:
        TRY(pop_int(m, &a));
        if (a != 0) {
            m->at = m->at / 1000 * 1000 + next.operand;
        }
        return NULL;
    case CALL:
        return call(m, next.operand);
    case RETURN:
        TRY(pop(m, A));
        return go_back(m, ended);
    case PRINT:
        TRY(pop_value(m, A, &value));
        return print(m, value);
    }
    return "no such instruction";
}

/* Runs a function without parameters from its start to its end. */
static fault run(machine *m, int64_t number) {
    const function *f = &m->functions[number];
    int ended = 0;
    TRY(make_frame(m, f));
    HEAP(rheap_copy(&m->heap, MACHINE, reg(FRAME), reg(NEW)));
    m->at = 1000 * number;
    m->height = LOCALS + f->locals;
    while (!ended) {
        instruction next = m->functions[m->at / 1000].code[m->at % 1000];
        m->at++;
        TRY(step(m, next, &ended));
    }
    return NULL;
}

/* Makes the registers nil: what only they reached is garbage then. */
static fault clear(machine *m) {
    size_t count;
    HEAP(rheap_drop_roots(&m->heap, MACHINE, reg(0), REGISTERS, &count));
    return NULL;
}

/* --- The programs --- */

enum { FIB, RANGE, TURN, SUM, DEEP, COUNT, LISTS, WORDS, SUMS, MISTAKE };

/* fib(n) = n < 2 ? n : fib(n - 1) + fib(n - 2) */
static const instruction fib[] = {
    {GET, 0}, {PUSH, 2}, {LESS, 0}, {JUMP_IF, 14},
    {GET, 0}, {PUSH, -1}, {ADD, 0}, {CALL, FIB},
    {GET, 0}, {PUSH, -2}, {ADD, 0}, {CALL, FIB}, {ADD, 0}, {RETURN, 0},
    {GET, 0}, {RETURN, 0}};

/* range(n): the list of n, n - 1, .., 1, made from its end; local 1 counts, local 2 is the list */
static const instruction range[] = {
    {PUSH, 1}, {SET, 1},
    {GET, 0}, {GET, 1}, {LESS, 0}, {JUMP_IF, 15},
    {GET, 1}, {GET, 2}, {CONS, 0}, {SET, 2},
    {GET, 1}, {PUSH, 1}, {ADD, 0}, {SET, 1}, {JUMP, 2},
    {GET, 2}, {RETURN, 0}};

/* turn(list): the list turned round, in local 1 */
static const instruction turn[] = {
    {GET, 0}, {IS_NIL, 0}, {JUMP_IF, 12},
    {GET, 0}, {FIRST, 0}, {GET, 1}, {CONS, 0}, {SET, 1},
    {GET, 0}, {REST, 0}, {SET, 0}, {JUMP, 0},
    {GET, 1}, {RETURN, 0}};

/* sum(n) = n < 1 ? 0 : n + sum(n - 1): a frame for each */
static const instruction sum[] = {
    {GET, 0}, {PUSH, 1}, {LESS, 0}, {JUMP_IF, 11},
    {GET, 0}, {GET, 0}, {PUSH, -1}, {ADD, 0}, {CALL, SUM}, {ADD, 0}, {RETURN, 0},
    {PUSH, 0}, {RETURN, 0}};

/* deep(): calls itself for ever */
static const instruction deep[] = {{CALL, DEEP}, {RETURN, 0}};

static const instruction count[] = {{PUSH, 20}, {CALL, FIB}, {PRINT, 0}, {NIL, 0}, {RETURN, 0}};

static const instruction lists[] = {{PUSH, 12}, {CALL, RANGE}, {PRINT, 0},
    {PUSH, 12}, {CALL, RANGE}, {CALL, TURN}, {PRINT, 0}, {NIL, 0}, {RETURN, 0}};

/* "ha" joined to itself three times, and a word behind it */
static const instruction words[] = {
    {TEXT, 0}, {SET, 0}, {PUSH, 0}, {SET, 1},
    {GET, 0}, {GET, 0}, {JOIN, 0}, {SET, 0},
    {GET, 1}, {PUSH, 1}, {ADD, 0}, {SET, 1}, {GET, 1}, {PUSH, 3}, {LESS, 0}, {JUMP_IF, 4},
    {GET, 0}, {TEXT, 1}, {JOIN, 0}, {PRINT, 0}, {NIL, 0}, {RETURN, 0}};

/* a thousand frames, four times as many as an owner has slots */
static const instruction sums[] = {{PUSH, 1000}, {CALL, SUM}, {PRINT, 0}, {NIL, 0}, {RETURN, 0}};

static const instruction mistake[] = {{PUSH, 7}, {FIRST, 0}, {RETURN, 0}};

static const char *const texts[] = {"ha", ", said the machine"};

static const function functions[] = {
    {fib, 1, 1, 3}, {range, 1, 3, 2}, {turn, 1, 2, 2}, {sum, 1, 1, 3}, {deep, 0, 0, 1},
    {count, 0, 0, 1}, {lists, 0, 0, 1}, {words, 0, 2, 2}, {sums, 0, 0, 1}, {mistake, 0, 0, 1}};

int main(void) {
    static const int64_t programs[] = {COUNT, LISTS, WORDS, SUMS, DEEP, MISTAKE, COUNT};
    machine m = {RHEAP_INIT, functions, texts, 0, 0};
    rheap_stats stats;
    fault wrong;
    size_t n;

    /* 32,768 words, texts of LONGEST bytes at most, ratio 32, an owner beside owner 0. */
    uint8_t status =
        rheap_open_sized(&m.heap, 32768, 2 + 1 + rheap_text_fields(LONGEST), 32, 2, REGISTERS);
    if (status != RHEAP_DONE) {
        fprintf(stderr, "machine: %s\n", rheap_name(status));
        return EXIT_FAILURE;
    }
    for (n = 0; n < sizeof programs / sizeof programs[0]; n++) {
        wrong = run(&m, programs[n]);
        if (wrong != NULL) {
            printf("program %lu: %s\n", (unsigned long)n, wrong);
        }
        wrong = clear(&m);
        if (wrong != NULL) {
            fprintf(stderr, "machine: %s\n", wrong);
            return EXIT_FAILURE;
        }
    }
    status = rheap_collect(&m.heap);
    if (status == RHEAP_DONE) {
        status = rheap_stat(&m.heap, &stats);
    }
    if (status == RHEAP_DONE) {
        printf("%lu cycles, %lu words left\n", (unsigned long)stats.flips,
               (unsigned long)stats.used);
    }
    (void)rheap_close(&m.heap);
    return status == RHEAP_DONE ? EXIT_SUCCESS : EXIT_FAILURE;
}
