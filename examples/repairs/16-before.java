class A {
    static int f(int[] a, @IntRange(from = 0, to = 9) int i) {
        if (2 * i + 1 < a.length) {
            return a[2 * i + 1];
        }
        return 0;
    }
}
