class A {
    static int f(int[] a, int[] b, int i) {
        int n = b.length;
        int d = a.length - n;
        if (d >= 0 && i >= 0 && i < n) {
            return a[d + i];
        }
        return 0;
    }
}
