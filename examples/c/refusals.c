/* A program that looks at no status: a handler is called where a call is refused, and jumps back to
   where the next piece of work begins. Tests rheap_on_refusal.h. Prints nothing if all is right. */
#include "rheap_array.h"
#include "rheap_on_refusal.h"
#include <setjmp.h>
#include <stdio.h>
#include <stdlib.h>
#include <string.h>

enum { OWNER = 1, FIRST = 0, SECOND, SLOTS = 8, BIGGEST = 64 };

static rheap heap = RHEAP_INIT;
static rheap_scope scope = {&heap, OWNER, 2};

/* What the handler was told last, and how often it was called. */
static struct {
    jmp_buf back;
    const char *call;
    unsigned calls;
    uint8_t status;
} told;

static void note(void *data, uint8_t status, const char *call) {
    told.call = call;
    told.status = status;
    told.calls++;
    if (data != NULL) {
        longjmp(told.back, 1);
    }
}

static void expect(int is_so, int line) {
    if (!is_so) {
        fprintf(stderr, "refusals: line %d: %s was told as %s, %u calls\n", line,
                rheap_name(told.status), told.call != NULL ? told.call : "none", told.calls);
        exit(EXIT_FAILURE);
    }
}

static void expect_told(const char *call, uint8_t status, unsigned calls, int line) {
    expect(told.call != NULL && strcmp(told.call, call) == 0 && told.status == status, line);
    expect(told.calls == calls, line);
}

static rheap_root_id at(uint32_t slot) {
    return rheap_slot(OWNER, slot);
}

/* A list as long as `cells`, built without a look at a status. */
static void build(uint32_t cells) {
    uint32_t n;
    rheap_drop(&heap, OWNER, at(FIRST));
    rheap_drop(&heap, OWNER, at(SECOND));
    for (n = 0; n < cells; n++) {
        rheap_insist_alloc(&heap, OWNER, at(SECOND), 2);
        rheap_insist_store_int(&heap, OWNER, at(SECOND), 0, n);
        rheap_insist_store_root(&heap, OWNER, at(SECOND), 1, at(FIRST));
        rheap_copy(&heap, OWNER, at(FIRST), at(SECOND));
    }
}

/* Without a handler, and with one that returns, a call returns its status. */
static void test_statuses(void) {
    rheap_value value;
    expect(rheap_drop(&heap, OWNER, at(FIRST)) == RHEAP_NOT_OPEN && told.calls == 0, __LINE__);
    expect(rheap_on_refusal(note, NULL).handler == NULL, __LINE__);
    expect(rheap_drop(&heap, OWNER, at(FIRST)) == RHEAP_NOT_OPEN, __LINE__);
    expect_told("rheap_drop", RHEAP_NOT_OPEN, 1, __LINE__);
    expect(rheap_open_sized(&heap, 4096, BIGGEST, 32, 2, SLOTS) == RHEAP_DONE, __LINE__);
    expect(rheap_open_sized(&heap, 4096, BIGGEST, 32, 2, SLOTS) == RHEAP_IS_OPEN, __LINE__);
    expect_told("rheap_open_sized", RHEAP_IS_OPEN, 2, __LINE__);
    rheap_peek(&heap, OWNER, at(FIRST), 0, &value);
    expect_told("rheap_peek", RHEAP_NOT_OBJECT, 3, __LINE__);
    /* One call among the arguments of another is handled too: here its status is the owner. */
    expect(rheap_drop(&heap, rheap_copy(&heap, OWNER, at(FIRST), at(SLOTS)), at(FIRST)) ==
               RHEAP_DONE, __LINE__);
    expect_told("rheap_copy", RHEAP_NO_ROOT, 4, __LINE__);
    /* A name in parentheses is the call alone. */
    expect((rheap_peek)(&heap, OWNER, at(FIRST), 0, &value) == RHEAP_NOT_OBJECT, __LINE__);
    expect(told.calls == 4, __LINE__);
}

/* An array tells its own refusals, and none of the calls that it is made of. */
static void test_arrays(void) {
    rheap_value value;
    int64_t n;
    rheap_array_make(&scope, at(FIRST), 0, 14);
    for (n = 0; n < 200; n++) {
        rheap_array_push_int(&scope, at(FIRST), n);
    }
    expect(told.calls == 4, __LINE__);
    rheap_array_peek(&scope, at(FIRST), 200, &value);
    expect_told("rheap_array_peek", RHEAP_NO_FIELD, 5, __LINE__);
    rheap_push(&scope);
    rheap_pop_to(&scope, 2);
    expect(told.calls == 5, __LINE__);
}

/* A handler that jumps leaves what it interrupts, and the heap goes on. */
static void test_jumps(void) {
    static volatile uint32_t cells;
    rheap_value value;
    rheap_refusals before = rheap_on_refusal(note, &told);
    expect(before.handler == note && before.data == NULL, __LINE__);
    cells = 2000;
    if (setjmp(told.back) == 0) {
        build(cells);
        expect(0, __LINE__);
    }
    expect_told("rheap_insist_alloc", RHEAP_SPACE_FULL, 6, __LINE__);
    cells = 100;
    if (setjmp(told.back) == 0) {
        build(cells);
        rheap_peek(&heap, OWNER, at(FIRST), 0, &value);
        expect(value.number == 99, __LINE__);
        rheap_store_int(&heap, OWNER, at(FIRST), 0, RHEAP_MAX_INT + 1);
        expect(0, __LINE__);
    }
    expect_told("rheap_store_int", RHEAP_INT_RANGE, 7, __LINE__);
    before = rheap_on_refusal(before.handler, before.data);
    expect(before.data == &told, __LINE__);
    rheap_close(&heap);
    expect(rheap_close(&heap) == RHEAP_NOT_OPEN, __LINE__);
    expect_told("rheap_close", RHEAP_NOT_OPEN, 8, __LINE__);
}

int main(void) {
    test_statuses();
    test_arrays();
    test_jumps();
    return 0;
}
