class A {
    static int f(int[] a, @NonNegative int w, @NonNegative int r, @NonNegative int c) {
        if (c >= w) {
            return 0;
        }
        return a[r * w + c];
    }
}
