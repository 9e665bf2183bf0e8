class A {
    static int f(int[] a, @NonNegative int i) {
        boolean inside = i < a.length;
        if (inside) {
            return a[i];
        }
        return 0;
    }
}
