class A {
    @NonNegative int h;

    int f(int[] a, @NonNegative int n) {
        int r = a.length - h;
        if (n < r) {
            return a[h + n];
        }
        return 0;
    }
}
