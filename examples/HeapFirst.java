import org.checkerframework.checker.index.qual.*;
import org.checkerframework.common.value.qual.*;

/** A binary heap, the least item first: right for up to 2^29 items, and rejected. Heap is accepted. */
public class HeapFirst {
    private int @MinLen(1) [] items = new int[16];
    private @IndexOrHigh("items") int size = 0;

    void add(int item) {
        if (size == items.length) {
            grow();
        }
        items[size] = item;
        moveUp(size);
        size++;
    }

    private void grow() {
        int[] more = new int[2 * items.length];
        for (int i = 0; i < items.length; i++) {
            more[i] = items[i];
        }
        items = more;
    }

    private void moveUp(@IndexFor("items") int start) {
        int i = start;
        while (i > 0) {
            int parent = (i - 1) / 2;
            if (items[parent] <= items[i]) {
                return;
            }
            swap(i, parent);
            i = parent;
        }
    }

    private void swap(@IndexFor("items") int i, @IndexFor("items") int j) {
        int item = items[i];
        items[i] = items[j];
        items[j] = item;
    }

    int take() {
        if (size == 0) {
            throw new IllegalStateException("empty");
        }
        int least = items[0];
        size--;
        items[0] = items[size];
        moveDown();
        return least;
    }

    private void moveDown() {
        int i = 0;
        while (2 * i + 1 < size) {
            int child = 2 * i + 1;
            if (child + 1 < size && items[child + 1] < items[child]) {
                child++;
            }
            if (items[i] <= items[child]) {
                return;
            }
            swap(i, child);
            i = child;
        }
    }

    /** Sorts an array in place. */
    static void sort(int[] a) {
        HeapFirst heap = new HeapFirst();
        for (int i = 0; i < a.length; i++) {
            heap.add(a[i]);
        }
        for (int i = 0; i < a.length; i++) {
            a[i] = heap.take();
            System.out.println(a[i]);
        }
    }
}
