class A {
    static int f(int[] a, @IndexOrHigh("#1") int l, @IndexOrHigh("#1") int h) {
        int n = h - l;
        if (n < 2) {
            return 0;
        }
        return a[l + n / 2];
    }
}
