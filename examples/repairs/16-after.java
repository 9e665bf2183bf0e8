class A {
    static int f(int[] a, @IntRange(from = 0, to = 9) int i) {
        int c = 2 * i + 1;
        if (c < a.length) {
            return a[c];
        }
        return 0;
    }
}
