/** A growing list of ints, as users write it. */
public class IntList {
    private int[] items;
    private int size;

    IntList() {
        items = new int[4];
    }

    void add(int item) {
        if (size == items.length) {
            int[] more = new int[2 * items.length + 1];
            for (int i = 0; i < items.length; i++) {
                more[i] = items[i];
            }
            items = more;
        }
        if (size >= 0 && size < items.length) {
            items[size] = item;
            size++;
        }
    }

    int get(int index) {
        if (index < 0 || index >= size || index >= items.length) {
            throw new IndexOutOfBoundsException();
        }
        return items[index];
    }

    int sum() {
        int sum = 0;
        for (int i = 0; i < size; i++) {
            sum += get(i);
        }
        return sum;
    }

    static int sumOf(int[] numbers) {
        IntList list = new IntList();
        for (int i = 0; i < numbers.length; i++) {
            list.add(numbers[i]);
        }
        System.out.println(list.size);
        return list.sum();
    }
}
