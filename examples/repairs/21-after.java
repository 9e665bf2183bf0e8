class A {
    static int f(int[] a, int[] p, @IndexFor("#2") int i) {
        int j = p[i];
        if (j >= 0 && j < a.length) {
            return a[j];
        }
        return 0;
    }
}
