class A {
    static int f(int[] a, @NonNegative int w, @NonNegative int r, @NonNegative int c) {
        if (c >= w) {
            return 0;
        }
        int k = r * w + c;
        if (k >= 0 && k < a.length) {
            return a[k];
        }
        throw new X();
    }
}
