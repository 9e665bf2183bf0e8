class A {
    static int f(int[] a, @IndexFor("#1") int l, @IndexFor("#1") int h) {
        if (l <= h) {
            return a[l + (h - l) / 2];
        }
        return 0;
    }
}
