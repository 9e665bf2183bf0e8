class A {
    static void f(int[] a, int[] b) {
        int n = a.length;
        if (b.length <= n) {
            throw new X();
        }
        for (int i = 0; i < n; i++) {
            b[i + 1] = a[i];
        }
    }
}
