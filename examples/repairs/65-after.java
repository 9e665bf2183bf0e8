class A {
    static int f(int[] a, @NonNegative int[] p, @IndexFor("#2") int i) {
        int j = p[i];
        if (j >= a.length) {
            throw new X();
        }
        return a[j];
    }
}
