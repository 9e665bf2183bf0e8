class A {
    static int f(int[] a, @NonNegative int from, @NonNegative int n) {
        int s = 0;
        if (from <= a.length - n) {
            for (int i = 0; i < n; i++) {
                s += a[from + i];
            }
        }
        return s;
    }
}
