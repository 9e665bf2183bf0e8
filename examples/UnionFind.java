import org.checkerframework.checker.index.qual.*;

/** Sets of the numbers from 0 up, which are joined. */
public class UnionFind {
    private final int[] parent;
    private final int @SameLen("parent") [] size;
    private int sets;

    UnionFind(@NonNegative int count) {
        parent = new int[count];
        size = new int[count];
        sets = count;
        for (int i = 0; i < count; i++) {
            parent[i] = i;
            size[i] = 1;
        }
    }

    /** The number itself, where it is one of these sets'. */
    private @IndexFor("parent") int checked(int number) {
        if (number < 0 || number >= parent.length) {
            throw new IndexOutOfBoundsException("no such number");
        }
        return number;
    }

    /** The number that stands for the set of this one. */
    @IndexFor("parent") int find(@IndexFor("parent") int of) {
        int at = of;
        int above = checked(parent[at]);
        while (above != at) {
            int next = checked(parent[above]);
            parent[at] = next;
            at = next;
            above = checked(parent[at]);
        }
        return at;
    }

    /** Joins the sets of two numbers, the smaller one below the greater one. */
    void join(int first, int second) {
        int one = find(checked(first));
        int other = find(checked(second));
        if (one == other) {
            return;
        }
        if (size[one] < size[other]) {
            parent[one] = other;
            size[other] += size[one];
        } else {
            parent[other] = one;
            size[one] += size[other];
        }
        sets--;
    }

    /** How many sets the numbers 0 to count - 1 have, when they are joined in pairs. */
    static int setsOf(@NonNegative int count, int[] pairs) {
        UnionFind sets = new UnionFind(count);
        for (int i = 0; i < pairs.length - 1; i += 2) {
            sets.join(pairs[i], pairs[i + 1]);
        }
        return sets.sets;
    }
}
