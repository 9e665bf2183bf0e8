class A {
    static int f(int[] a, @NonNegative int i) {
        if (i < a.length) {
            return a[i];
        }
        return 0;
    }
}
