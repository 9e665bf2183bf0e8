class A {
    static int f(int[] a, int i) {
        if (i >= 0 && i + 1 < a.length) {
            return a[i + 1];
        }
        return 0;
    }
}
