class A {
    static int f(int[] a, @NonNegative int p, @LTLengthOf("#1") int k) {
        if (p > k) {
            return 0;
        }
        if (p == k) {
            return 0;
        }
        return a[p + 1];
    }
}
