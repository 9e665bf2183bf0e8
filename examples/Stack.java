class Stack {
    private final int[] items = new int[100];
    private @IndexOrHigh("items") int size;

    void push(int item) {
        if (size == items.length) {
            throw new IllegalStateException("full");
        }
        items[size++] = item;
    }

    int pop() {
        if (size == 0) {
            throw new IllegalStateException("empty");
        }
        return items[--size];
    }
}
