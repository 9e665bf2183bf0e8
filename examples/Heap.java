import org.checkerframework.checker.index.qual.*;
import org.checkerframework.common.value.qual.*;
import org.checkerframework.dataflow.qual.*;

/** A binary heap, the least item first. */
public class Heap {
    private int @MinLen(1) [] items = new int[16];
    private @IndexOrHigh("items") int size = 0;

    void add(int item) {
        if (size == items.length) {
            grow();
        }
        items[size] = item;
        moveUp(size);
        size++;
    }

    /** Makes room for one more item at least. */
    @EnsuresLTLengthOf(value = "size", targetValue = "items")
    private void grow() {
        int length = size;
        if (length > 1000000000) {
            throw new IllegalStateException("full");
        }
        int[] more = new int[length + length + 1];
        for (int i = 0; i < length; i++) {
            more[i] = items[i];
        }
        items = more;
    }

    @SideEffectFree
    private void moveUp(@IndexFor("items") int start) {
        int i = start;
        while (i > 0) {
            int parent = (i - 1) / 2;
            if (items[parent] <= items[i]) {
                return;
            }
            swap(i, parent);
            i = parent;
        }
    }

    @SideEffectFree
    private void swap(@IndexFor("items") int i, @IndexFor("items") int j) {
        int item = items[i];
        items[i] = items[j];
        items[j] = item;
    }

    int take() {
        if (size == 0) {
            throw new IllegalStateException("empty");
        }
        int least = items[0];
        size--;
        items[0] = items[size];
        moveDown();
        return least;
    }

    @SideEffectFree
    private void moveDown() {
        int end = size;
        int i = 0;
        while (i < end / 2) {
            int child = 2 * i + 1;
            if (child >= end) {
                return;
            }
            if (child + 1 < end && items[child + 1] < items[child]) {
                child++;
            }
            if (items[i] <= items[child]) {
                return;
            }
            swap(i, child);
            i = child;
        }
    }

    /** Sorts an array in place. */
    static void sort(int[] a) {
        Heap heap = new Heap();
        for (int i = 0; i < a.length; i++) {
            heap.add(a[i]);
        }
        for (int i = 0; i < a.length; i++) {
            a[i] = heap.take();
            System.out.println(a[i]);
        }
    }
}
