class A {
    static int f(int[] a, int i) {
        if (i >= 0 && i < a.length - 1) {
            return a[i + 1];
        }
        return 0;
    }
}
