class A {
    static int f(int[] a, @NonNegative int i) {
        int c = 2 * i + 1;
        if (c >= 0 && c < a.length) {
            return a[c];
        }
        return 0;
    }
}
