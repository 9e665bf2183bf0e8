class A {
    static int f(int[] a, int[] b, @NonNegative int i) {
        int n = a.length;
        int m = b.length;
        if (m < n) {
            n = m;
        }
        if (i < n) {
            return a[i];
        }
        return 0;
    }
}
