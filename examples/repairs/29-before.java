class A {
    static void check(int[] a, int i) {
        if (i < 0) {
            throw new X();
        }
        if (i >= a.length) {
            throw new X();
        }
    }

    static int f(int[] a, int i) {
        check(a, i);
        return a[i];
    }
}
