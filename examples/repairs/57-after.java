class A {
    static int[] f(int[] a, @IndexOrHigh("#1") int from, @IndexOrHigh("#1") int to) {
        if (from > to) {
            throw new X();
        }
        int n = to - from;
        int[] r = new int[n];
        for (int i = 0; i < n; i++) {
            r[i] = a[from + i];
        }
        return r;
    }
}
