/* binary-trees, of the Benchmarks Game: whole binary trees are made, counted and let go. One source
   for two collectors: this heap, and Boehm's with -DBOEHM and -lgc. Both print the same lines.

   Usage: trees [DEPTH [WORDS]]. DEPTH is from 6 to 18, and 10 without it. WORDS are those of this
   heap's space; without them a space that suits the depth is taken. Boehm's collector doesn't look
   at them: its first heap has the bytes that the variable GC_INITIAL_HEAP_SIZE says. */
#include <stdint.h>
#include <stdio.h>
#include <stdlib.h>

/* What differs: a node is named by a slot here, and by an address there. */
#ifdef BOEHM

#include <gc.h>

typedef struct node {
    struct node *left;
    struct node *right;
} node;

/* The node that a slot names; each level of a tree has a slot. */
static node *nodes[64];

static void open_for(uint32_t depth, uint32_t words) {
    (void)depth;
    (void)words;
    GC_INIT();
}

/* A slot takes a new node: one without children, and one with the nodes of two slots. */
static void make_leaf(uint32_t slot) {
    nodes[slot] = (node *)GC_MALLOC(sizeof(node));
}

static void make_node(uint32_t slot, uint32_t left, uint32_t right) {
    node *made = (node *)GC_MALLOC(sizeof(node));
    made->left = nodes[left];
    made->right = nodes[right];
    nodes[slot] = made;
}

/* A slot takes a child of another slot's node. A node has both children or none: the first call
   answers whether it has. */
static int go_left(uint32_t slot, uint32_t from) {
    nodes[slot] = nodes[from]->left;
    return nodes[slot] != NULL;
}

static void go_right(uint32_t slot, uint32_t from) {
    nodes[slot] = nodes[from]->right;
}

static unsigned long collections(void) {
    return (unsigned long)GC_get_gc_no();
}

/* This collector's heap stays as long as the program. */
static void close_heap(void) {
}

#else

#include "rheap.h"

static rheap heap = RHEAP_INIT;

/* Ends the program where a call wasn't done, and says why. */
static void must(uint8_t status) {
    if (status != RHEAP_DONE) {
        fprintf(stderr, "trees: %s\n", rheap_name(status));
        exit(EXIT_FAILURE);
    }
}

/* All slots are owner 0's. A whole tree has 2^(depth + 1) - 1 nodes of 4 words. Of the space 83
   percent may live at ratio 32: eight times the lasting tree has room for the stretch tree, and for
   garbage. */
static void open_for(uint32_t depth, uint32_t words) {
    if (words == 0) {
        words = depth < 10 ? 65536 : (uint32_t)64 << depth;
    }
    must(rheap_open_sized(&heap, words, 4, 32, 1, 64));
}

/* A slot takes a new node: one without children, and one with the nodes of two slots. */
static void make_leaf(uint32_t slot) {
    must(rheap_shared_insist_alloc(&heap, slot, 2));
}

static void make_node(uint32_t slot, uint32_t left, uint32_t right) {
    rheap_init children[2];
    children[0] = rheap_of_root(rheap_slot(0, left));
    children[1] = rheap_of_root(rheap_slot(0, right));
    must(rheap_insist_make(&heap, 0, rheap_slot(0, slot), 2, children, 2));
}

/* A slot takes a child of another slot's node. A node has both children or none: the first call
   answers whether it has. */
static int go_left(uint32_t slot, uint32_t from) {
    rheap_value left;
    must(rheap_shared_load(&heap, slot, from, 0, &left));
    return left.kind == RHEAP_OBJECT;
}

static void go_right(uint32_t slot, uint32_t from) {
    must(rheap_shared_load_untold(&heap, slot, from, 1));
}

static unsigned long collections(void) {
    rheap_stats stats;
    must(rheap_stat(&heap, &stats));
    return (unsigned long)stats.flips;
}

static void close_heap(void) {
    must(rheap_close(&heap));
}

#endif

/* A whole tree of this depth in a slot; the slots above it are used. */
static void grow(uint32_t slot, uint32_t depth) {
    if (depth == 0) {
        make_leaf(slot);
    } else {
        grow(slot + 1, depth - 1);
        grow(slot + 2, depth - 1);
        make_node(slot, slot + 1, slot + 2);
    }
}

/* The nodes of the tree in a slot; the slots above it are used. */
static long count(uint32_t slot) {
    long below;
    if (!go_left(slot + 1, slot)) {
        return 1;
    }
    below = count(slot + 1);
    go_right(slot + 1, slot);
    return 1 + below + count(slot + 1);
}

int main(int argc, char **argv) {
    uint32_t most = argc > 1 ? (uint32_t)atoi(argv[1]) : 10;
    uint32_t words = argc > 2 ? (uint32_t)atoi(argv[2]) : 0;
    uint32_t depth;
    if (argc > 3 || most < 6 || most > 18) {
        fprintf(stderr, "trees: it takes a depth from 6 to 18, and words\n");
        return 2;
    }
    open_for(most, words);

    /* Slot 0 has the lasting tree, and slots from 1 on the others. */
    grow(1, most + 1);
    printf("stretch tree of depth %u\t check: %ld\n", (unsigned)most + 1, count(1));
    grow(0, most);
    for (depth = 4; depth <= most; depth += 2) {
        long trees = 1L << (most - depth + 4);
        long sum = 0;
        long tree;
        for (tree = 0; tree < trees; tree++) {
            grow(1, depth);
            sum += count(1);
        }
        printf("%ld\t trees of depth %u\t check: %ld\n", trees, (unsigned)depth, sum);
    }
    printf("long lived tree of depth %u\t check: %ld\n", (unsigned)most, count(0));
    fprintf(stderr, "%lu collections\n", collections());
    close_heap();
    return 0;
}
