class StackFirst {
    private final int[] items = new int[100];
    private int size;

    void push(int item) {
        items[size++] = item;
    }

    int pop() {
        return items[--size];
    }
}
