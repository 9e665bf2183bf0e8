/** Sets of the numbers from 0 up, which are joined: right for such numbers, and rejected. UnionFind is accepted. */
public class UnionFindFirst {
    private final int[] parent;
    private final int[] size;
    private int sets;

    UnionFindFirst(int count) {
        parent = new int[count];
        size = new int[count];
        sets = count;
        for (int i = 0; i < count; i++) {
            parent[i] = i;
            size[i] = 1;
        }
    }

    /** The number that stands for the set of this one. */
    int find(int of) {
        int at = of;
        while (parent[at] != at) {
            parent[at] = parent[parent[at]];
            at = parent[at];
        }
        return at;
    }

    /** Joins the sets of two numbers, the smaller one below the greater one. */
    void join(int first, int second) {
        int one = find(first);
        int other = find(second);
        if (one == other) {
            return;
        }
        if (size[one] < size[other]) {
            parent[one] = other;
            size[other] += size[one];
        } else {
            parent[other] = one;
            size[one] += size[other];
        }
        sets--;
    }

    /** How many sets the numbers 0 to count - 1 have, when they are joined in pairs. */
    static int setsOf(int count, int[] pairs) {
        UnionFindFirst sets = new UnionFindFirst(count);
        for (int i = 0; i + 1 < pairs.length; i += 2) {
            sets.join(pairs[i], pairs[i + 1]);
        }
        return sets.sets;
    }
}
