class A {
    static @IndexFor("#1") int check(int[] a, int i) {
        if (i < 0) {
            throw new X();
        }
        if (i >= a.length) {
            throw new X();
        }
        return i;
    }

    static int f(int[] a, int i) {
        return a[check(a, i)];
    }
}
