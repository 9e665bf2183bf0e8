class A {
    static int[] f(int[] a, @IndexOrHigh("#1") int from, @IndexOrHigh("#1") int to) {
        if (from > to) {
            throw new X();
        }
        int[] r = new int[to - from];
        for (int i = from; i < to; i++) {
            r[i - from] = a[i];
        }
        return r;
    }
}
