import org.checkerframework.checker.index.qual.*;
import org.checkerframework.common.value.qual.*;

/** A queue of bounded size. */
public class RingBuffer {
    private final int @MinLen(1) [] items;
    private @IndexFor("items") int head;
    private @IndexOrHigh("items") int size;

    RingBuffer(@Positive int capacity) {
        items = new int[capacity];
        head = 0;
        size = 0;
    }

    boolean isEmpty() {
        return size == 0;
    }

    boolean isFull() {
        return size == items.length;
    }

    void push(int item) {
        if (size == items.length) {
            throw new IllegalStateException("full");
        }
        int first = head;
        int room = items.length - first;
        if (size < room) {
            items[first + size] = item;
        } else {
            items[size - room] = item;
        }
        size++;
    }

    int pop() {
        if (size == 0) {
            throw new IllegalStateException("empty");
        }
        int item = items[head];
        head = (head + 1) % items.length;
        size--;
        return item;
    }

    /** The sum of the last items of a stream. */
    static int sumOfLast(@Positive int capacity, int[] stream) {
        RingBuffer last = new RingBuffer(capacity);
        for (int i = 0; i < stream.length; i++) {
            if (last.isFull()) {
                last.pop();
            }
            last.push(stream[i]);
        }
        int sum = 0;
        while (!last.isEmpty()) {
            sum += last.pop();
        }
        return sum;
    }
}
