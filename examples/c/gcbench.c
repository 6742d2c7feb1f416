/* GCBench, of Ellis, Kovac and Boehm: trees of several depths, made from the root down and from the
   leaves up, beside a tree and an array of numbers that live long. One source for two collectors:
   this heap, and Boehm's with -DBOEHM and -lgc. Both print the same lines.

   Usage: gcbench [DEPTH [WORDS]]. DEPTH is from 8 to 18, which is GCBench's, and 10 without it. WORDS
   are those of this heap's space; without them a space that suits the depth is taken. Boehm's
   collector doesn't look at them: its first heap has the bytes that the variable
   GC_INITIAL_HEAP_SIZE says. */
#include <stdint.h>
#include <stdio.h>
#include <stdlib.h>

/* What differs: a node is named by a slot here, and by an address there. A node has two trees and
   two numbers, which stay as they are. */
#ifdef BOEHM

#include <gc.h>

typedef struct node {
    struct node *left;
    struct node *right;
    long i;
    long j;
} node;

/* The node that a slot names; each level of a tree has a slot. */
static node *nodes[64];

static int64_t *numbers;

static void open_for(uint32_t depth, uint32_t words) {
    (void)depth;
    (void)words;
    GC_INIT();
}

/* A slot takes a new node: one without children, and one with the nodes of two slots. */
static void make_leaf(uint32_t slot) {
    nodes[slot] = (node *)GC_MALLOC(sizeof(node));
}

static void make_node(uint32_t slot, uint32_t left, uint32_t right) {
    node *made = (node *)GC_MALLOC(sizeof(node));
    made->left = nodes[left];
    made->right = nodes[right];
    nodes[slot] = made;
}

/* A slot's node takes the node of another slot as a child. */
static void link_left(uint32_t slot, uint32_t left) {
    nodes[slot]->left = nodes[left];
}

static void link_right(uint32_t slot, uint32_t right) {
    nodes[slot]->right = nodes[right];
}

/* A slot takes a child of another slot's node. A node has both children or none: the first call
   answers whether it has. */
static int go_left(uint32_t slot, uint32_t from) {
    nodes[slot] = nodes[from]->left;
    return nodes[slot] != NULL;
}

static void go_right(uint32_t slot, uint32_t from) {
    nodes[slot] = nodes[from]->right;
}

static void make_array(uint32_t count) {
    numbers = (int64_t *)GC_MALLOC_ATOMIC((size_t)count * sizeof(int64_t));
}

static void put(uint32_t place, int64_t number) {
    numbers[place] = number;
}

static int64_t at(uint32_t place) {
    return numbers[place];
}

static unsigned long collections(void) {
    return (unsigned long)GC_get_gc_no();
}

/* This collector's heap stays as long as the program. */
static void close_heap(void) {
}

#else

#include "rheap.h"

/* All slots are owner 0's. These are of the array and of a piece of it. */
#define ARRAY 62
#define PIECE 63

/* An object has at most 4,095 fields: the array is an object of raw pieces of so many numbers. */
#define NUMBERS 512

static rheap heap = RHEAP_INIT;

static void must(uint8_t status) {
    if (status != RHEAP_DONE) {
        fprintf(stderr, "gcbench: %s\n", rheap_name(status));
        exit(EXIT_FAILURE);
    }
}

/* 4,194,304 words at depth 18: of nodes of 6 words the stretch tree has 3,145,722. */
static void open_for(uint32_t depth, uint32_t words) {
    if (words == 0) {
        words = depth < 11 ? 32768 : (uint32_t)16 << depth;
    }
    must(rheap_open_sized(&heap, words, 1026, 32, 1, 64));
}

/* A slot takes a new node: one without children, and one with the nodes of two slots. */
static void make_leaf(uint32_t slot) {
    must(rheap_shared_insist_alloc(&heap, slot, 4));
}

static void make_node(uint32_t slot, uint32_t left, uint32_t right) {
    rheap_init children[2];
    children[0] = rheap_of_root(rheap_slot(0, left));
    children[1] = rheap_of_root(rheap_slot(0, right));
    must(rheap_insist_make(&heap, 0, rheap_slot(0, slot), 4, children, 2));
}

/* A slot's node takes the node of another slot as a child. */
static void link_left(uint32_t slot, uint32_t left) {
    must(rheap_shared_insist_store_root(&heap, slot, 0, left));
}

static void link_right(uint32_t slot, uint32_t right) {
    must(rheap_shared_insist_store_root(&heap, slot, 1, right));
}

/* A slot takes a child of another slot's node. A node has both children or none: the first call
   answers whether it has. */
static int go_left(uint32_t slot, uint32_t from) {
    rheap_value left;
    must(rheap_shared_load(&heap, slot, from, 0, &left));
    return left.kind == RHEAP_OBJECT;
}

static void go_right(uint32_t slot, uint32_t from) {
    must(rheap_shared_load_untold(&heap, slot, from, 1));
}

static void make_array(uint32_t count) {
    uint32_t piece;
    must(rheap_shared_insist_alloc(&heap, ARRAY, count / NUMBERS));
    for (piece = 0; piece < count / NUMBERS; piece++) {
        must(rheap_shared_insist_alloc_raw(&heap, PIECE, NUMBERS));
        must(rheap_shared_insist_store_root(&heap, ARRAY, piece, PIECE));
    }
}

/* Puts a number into the piece that the last number went to, or loads the next one. */
static void put(uint32_t place, int64_t number) {
    if (place % NUMBERS == 0) {
        must(rheap_shared_load_untold(&heap, PIECE, ARRAY, place / NUMBERS));
    }
    must(rheap_shared_insist_store_int(&heap, PIECE, place % NUMBERS, number));
}

static int64_t at(uint32_t place) {
    rheap_value value;
    must(rheap_shared_load_untold(&heap, PIECE, ARRAY, place / NUMBERS));
    must(rheap_shared_peek(&heap, PIECE, place % NUMBERS, &value));
    return value.number;
}

static unsigned long collections(void) {
    rheap_stats stats;
    must(rheap_stat(&heap, &stats));
    return (unsigned long)stats.flips;
}

static void close_heap(void) {
    must(rheap_close(&heap));
}

#endif

/* A whole tree of this depth in a slot, its leaves first; the slots above it are used. */
static void grow_up(uint32_t slot, uint32_t depth) {
    if (depth == 0) {
        make_leaf(slot);
    } else {
        grow_up(slot + 1, depth - 1);
        grow_up(slot + 2, depth - 1);
        make_node(slot, slot + 1, slot + 2);
    }
}

/* Grows the node in a slot to a tree of this depth, its root first; the slots above it are used. */
static void grow_down(uint32_t slot, uint32_t depth) {
    if (depth > 0) {
        make_leaf(slot + 1);
        link_left(slot, slot + 1);
        grow_down(slot + 1, depth - 1);
        make_leaf(slot + 1);
        link_right(slot, slot + 1);
        grow_down(slot + 1, depth - 1);
    }
}

/* The nodes of the tree in a slot; the slots above it are used. */
static long count(uint32_t slot) {
    long below;
    if (!go_left(slot + 1, slot)) {
        return 1;
    }
    below = count(slot + 1);
    go_right(slot + 1, slot);
    return 1 + below + count(slot + 1);
}

int main(int argc, char **argv) {
    uint32_t stretch = argc > 1 ? (uint32_t)atoi(argv[1]) : 10;
    uint32_t words = argc > 2 ? (uint32_t)atoi(argv[2]) : 0;
    uint32_t place;
    uint32_t depth;
    if (argc > 3 || stretch < 8 || stretch > 18) {
        fprintf(stderr, "gcbench: it takes a depth from 8 to 18, and words\n");
        return 2;
    }
    open_for(stretch, words);
    grow_up(1, stretch);

    /* Slot 0 has the tree that lives long, and slots from 1 on the others. */
    make_leaf(0);
    grow_down(0, stretch - 2);
    make_array((uint32_t)2 << stretch);
    for (place = 0; place < (uint32_t)2 << stretch; place++) {
        put(place, place);
    }
    for (depth = 4; depth <= stretch - 2; depth += 2) {
        long trees = 2 * ((2L << stretch) - 1) / ((2L << depth) - 1);
        long tree;
        for (tree = 0; tree < trees; tree++) {
            make_leaf(1);
            grow_down(1, depth);
        }
        for (tree = 0; tree < trees; tree++) {
            grow_up(1, depth);
        }
        printf("%ld trees of depth %u, twice\n", trees, (unsigned)depth);
    }
    printf("long lived tree: %ld nodes\n", count(0));
    printf("number 500: %ld\n", (long)at(500));
    fprintf(stderr, "%lu collections\n", collections());
    close_heap();
    return 0;
}
