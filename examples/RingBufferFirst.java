import org.checkerframework.checker.index.qual.*;
import org.checkerframework.common.value.qual.*;

/** A queue of bounded size: right for a capacity of up to 2^30, and rejected. RingBuffer is accepted. */
public class RingBufferFirst {
    private final int @MinLen(1) [] items;
    private @IndexFor("items") int head;
    private @NonNegative int size;

    RingBufferFirst(@Positive int capacity) {
        items = new int[capacity];
        head = 0;
        size = 0;
    }

    boolean isEmpty() {
        return size == 0;
    }

    boolean isFull() {
        return size == items.length;
    }

    void push(int item) {
        if (isFull()) {
            throw new IllegalStateException("full");
        }
        items[(head + size) % items.length] = item;
        size++;
    }

    int pop() {
        if (isEmpty()) {
            throw new IllegalStateException("empty");
        }
        int item = items[head];
        head = (head + 1) % items.length;
        size--;
        return item;
    }

    /** The sum of the last items of a stream. */
    static int sumOfLast(@Positive int capacity, int[] stream) {
        RingBufferFirst last = new RingBufferFirst(capacity);
        for (int i = 0; i < stream.length; i++) {
            if (last.isFull()) {
                last.pop();
            }
            last.push(stream[i]);
        }
        int sum = 0;
        while (!last.isEmpty()) {
            sum += last.pop();
        }
        return sum;
    }
}
