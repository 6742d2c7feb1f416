/* binary-trees (the Benchmarks Game's) and GCBench (Ellis, Kovac and Boehm) on Boehm's collector:
 * what bench/trees runs beside the programs of this repository. boehm_trees binary-trees DEPTH, boehm_trees gc-bench. */
#include <gc.h>
#include <stdio.h>
#include <stdlib.h>
#include <string.h>

typedef struct node { struct node *left, *right; long i, j; } node;

static size_t bytes; /* of a node */

static node *make(void) { return GC_MALLOC(bytes); }

static node *grow_up(int depth) {
    if (depth == 0) return make();
    node *left = grow_up(depth - 1), *right = grow_up(depth - 1), *n = make();
    n->left = left;
    n->right = right;
    return n;
}

static void grow_down(node *n, int depth) {
    if (depth == 0) return;
    n->left = make();
    grow_down(n->left, depth - 1);
    n->right = make();
    grow_down(n->right, depth - 1);
}

static long count(const node *n) { return n ? 1 + count(n->left) + count(n->right) : 0; }

static void binary_trees(int most) {
    bytes = 2 * sizeof(node *);
    /* A node of two words: what lies behind them is not read. */
    printf("stretch tree of depth %d\t check: %ld\n", most + 1, count(grow_up(most + 1)));
    node *lasting = grow_up(most);
    for (int depth = 4; depth <= most; depth += 2) {
        long trees = 1L << (most - depth + 4), nodes = 0;
        for (long t = 0; t < trees; t++) nodes += count(grow_up(depth));
        printf("%ld\t trees of depth %d\t check: %ld\n", trees, depth, nodes);
    }
    printf("long lived tree of depth %d\t check: %ld\n", most, count(lasting));
}

static void gc_bench(void) {
    bytes = sizeof(node);
    grow_up(18);
    node *lasting = make();
    grow_down(lasting, 16);
    double *array = GC_MALLOC_ATOMIC(524288 * sizeof(double));
    for (int i = 0; i < 524288; i++) array[i] = i;
    for (int depth = 4; depth <= 16; depth += 2) {
        long trees = 2 * ((1L << 19) - 1) / ((1L << (depth + 1)) - 1);
        for (long t = 0; t < trees; t++) grow_down(make(), depth);
        for (long t = 0; t < trees; t++) grow_up(depth);
        printf("%ld trees of depth %d, twice\n", trees, depth);
    }
    printf("long lived tree: %ld nodes\n", count(lasting) + (array[1] != 1.0));
}

int main(int argc, char **argv) {
    GC_INIT();
    if (argc == 3 && !strcmp(argv[1], "binary-trees")) binary_trees(atoi(argv[2]));
    else if (argc == 2 && !strcmp(argv[1], "gc-bench")) gc_bench();
    else return 2;
    fprintf(stderr, "collections %lu\n", (unsigned long)GC_get_gc_no());
    return 0;
}
