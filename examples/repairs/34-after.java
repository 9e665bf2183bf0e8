class A {
    static int f(int[] a, @IndexOrHigh("#1") int n) {
        int s = 0;
        for (int i = 0; i < n; i++) {
            s += a[i];
        }
        return s;
    }

    static int g(int[] a) {
        return f(a, a.length);
    }
}
