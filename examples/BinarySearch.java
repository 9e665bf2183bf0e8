import org.checkerframework.checker.index.qual.*;

/** Binary search in a sorted array, as java.util.Arrays has it. */
public class BinarySearch {
    /** An index of the key, or ~(insertion point). */
    static @SearchIndexFor("#1") int search(int[] a, int key) {
        int low = 0;
        int high = a.length - 1;
        while (low <= high) {
            int middle = low + (high - low) / 2;
            int value = a[middle];
            if (value < key) {
                low = middle + 1;
            } else if (value > key) {
                high = middle - 1;
            } else {
                return middle;
            }
        }
        return ~low;
    }

    static boolean contains(int[] a, int key) {
        return search(a, key) >= 0;
    }

    /** The least element that isn't below the key, or the key itself where there is none. */
    static int ceiling(int[] a, int key) {
        int at = search(a, key);
        if (at < 0) {
            at = ~at;
        }
        if (at == a.length) {
            return key;
        }
        return a[at];
    }
}
