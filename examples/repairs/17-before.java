class A {
    static int f(int[] a, @IndexOrHigh("#1") int l, @IndexOrHigh("#1") int h) {
        if (h - l < 2) {
            return 0;
        }
        return a[l + (h - l) / 2];
    }
}
