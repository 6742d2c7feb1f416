/* How the libraries rheap_c and rheap_c_traces take memory, and free it: the three functions that their
   archives leave to the program, over the C library's. `./rheap install` compiles them into
   librheap.a. Nothing here is proved: it is trusted to do what the comments say. To take memory
   elsewhere, define the three in a file of your own, and link that before librheap.a. */
#define _DEFAULT_SOURCE 1 /* posix_memalign and madvise, which C99 lacks */
#include <stdbool.h>
#include <stddef.h>
#include <stdlib.h>
#include <string.h>
#ifdef __linux__
#include <sys/mman.h>
#endif

/* A block of so many bytes or more begins at a huge page, and the system is asked for such pages. */
#define LARGE ((size_t)4 << 20)
#define HUGE_PAGE ((size_t)2 << 20)

/* Whether there is memory, and where. The address is never null: if there is no memory it is that of
   a byte that nobody reads. */
struct rheap_tried {
    bool ok;
    void *at;
};

struct rheap_tried rattle_alloc(size_t size, size_t align);
struct rheap_tried rattle_realloc(void *at, size_t kept, size_t size, size_t align);
void rattle_dealloc(void *at);

static struct rheap_tried tried(void *at) {
    static char no_memory;
    struct rheap_tried answer;
    answer.ok = at != NULL;
    answer.at = answer.ok ? at : &no_memory;
    return answer;
}

/* A large block, or null. If the system has no huge pages, or gives none, the block has small ones. */
static void *large_block(size_t size) {
    void *at;
    if (posix_memalign(&at, HUGE_PAGE, size) != 0) {
        return NULL;
    }
#ifdef MADV_HUGEPAGE
    (void)madvise(at, size, MADV_HUGEPAGE);
#endif
    return at;
}

/* New memory of so many bytes, whose address the alignment divides. That is a power of 2, at most 16,
   as malloc's of the platform gives. A block of no bytes has an address of its own. */
struct rheap_tried rattle_alloc(size_t size, size_t align) {
    return tried(size >= LARGE ? large_block(size) : malloc(size == 0 ? align : size));
}

/* The block at `at` gets so many bytes, of which the first `kept` are as they were. It may move. If
   there is no memory, it stays as it was. One that is to be large always moves, since realloc doesn't
   keep it at a huge page. */
struct rheap_tried rattle_realloc(void *at, size_t kept, size_t size, size_t align) {
    void *moved;
    if (size < LARGE) {
        return tried(realloc(at, size == 0 ? align : size));
    }
    moved = large_block(size);
    if (moved != NULL) {
        memcpy(moved, at, kept);
        free(at);
    }
    return tried(moved);
}

/* Frees what either gave. */
void rattle_dealloc(void *at) {
    free(at);
}
