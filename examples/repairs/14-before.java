class A {
    static int f(int[] a, int[] b, @NonNegative int i) {
        int n = a.length;
        if (b.length < n) {
            n = b.length;
        }
        if (i < n) {
            return a[i];
        }
        return 0;
    }
}
