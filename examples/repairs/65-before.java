class A {
    static int f(int[] a, @IndexFor("#1") int[] p, @IndexFor("#2") int i) {
        int j = p[i];
        return a[j];
    }
}
