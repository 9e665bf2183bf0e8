class A {
    static int f(int[] a, int[] p, @IndexFor("#2") int i) {
        if (p[i] >= 0 && p[i] < a.length) {
            return a[p[i]];
        }
        return 0;
    }
}
