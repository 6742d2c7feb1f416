/** binary-trees (the Benchmarks Game's) and GCBench (Ellis, Kovac and Boehm) in Java: what bench/trees runs beside the
 * programs of this repository. Trees binary-trees DEPTH, Trees gc-bench. */
public final class Trees {
    /** A node of binary-trees. */
    private static class Node {
        Node left, right;

        long count() {
            return 1 + (left == null ? 0 : left.count()) + (right == null ? 0 : right.count());
        }
    }

    /** A node of GCBench, which has two numbers too. */
    private static final class Wide extends Node {
        int i, j;
    }

    private static boolean wide;

    private static Node make() {
        return wide ? new Wide() : new Node();
    }

    private static Node growUp(int depth) {
        if (depth == 0) return make();
        Node left = growUp(depth - 1), right = growUp(depth - 1), node = make();
        node.left = left;
        node.right = right;
        return node;
    }

    private static void growDown(Node node, int depth) {
        if (depth == 0) return;
        node.left = make();
        growDown(node.left, depth - 1);
        node.right = make();
        growDown(node.right, depth - 1);
    }

    private static void binaryTrees(int most) {
        System.out.printf("stretch tree of depth %d\t check: %d%n", most + 1, growUp(most + 1).count());
        Node lasting = growUp(most);
        for (int depth = 4; depth <= most; depth += 2) {
            long trees = 1L << (most - depth + 4), nodes = 0;
            for (long t = 0; t < trees; t++) nodes += growUp(depth).count();
            System.out.printf("%d\t trees of depth %d\t check: %d%n", trees, depth, nodes);
        }
        System.out.printf("long lived tree of depth %d\t check: %d%n", most, lasting.count());
    }

    private static void gcBench() {
        wide = true;
        growUp(18);
        Node lasting = make();
        growDown(lasting, 16);
        double[] array = new double[524288];
        for (int i = 0; i < array.length; i++) array[i] = i;
        for (int depth = 4; depth <= 16; depth += 2) {
            long trees = 2 * ((1L << 19) - 1) / ((1L << (depth + 1)) - 1);
            for (long t = 0; t < trees; t++) growDown(make(), depth);
            for (long t = 0; t < trees; t++) growUp(depth);
            System.out.printf("%d trees of depth %d, twice%n", trees, depth);
        }
        System.out.printf("long lived tree: %d nodes%n", lasting.count() + (array[1] == 1.0 ? 0 : 1));
    }

    public static void main(String[] words) {
        if (words.length == 2 && words[0].equals("binary-trees")) binaryTrees(Integer.parseInt(words[1]));
        else if (words.length == 1 && words[0].equals("gc-bench")) gcBench();
        else System.exit(2);
    }
}
