class A {
    @NonNegative int h;

    int f(int[] a, @NonNegative int n) {
        int k = h;
        int r = a.length - k;
        if (n < r) {
            return a[k + n];
        }
        return 0;
    }
}
