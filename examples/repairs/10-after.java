class A {
    static int f(int[] a, @IndexFor("#1") int i) {
        int j = i - 1;
        if (j < 0) {
            j = a.length - 1;
        }
        return a[j];
    }
}
