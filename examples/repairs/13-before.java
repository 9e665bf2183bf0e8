class A {
    static int f(int[] a, int[] b, int i) {
        int d = a.length - b.length;
        if (d >= 0 && i >= 0 && i < b.length) {
            return a[d + i];
        }
        return 0;
    }
}
