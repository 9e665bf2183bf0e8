class A {
    int[] t = new int[4];
    @IndexOrHigh("t") int n;

    void add(int x) {
        if (n == t.length) {
            int[] u = new int[2 * t.length];
            for (int i = 0; i < n; i++) {
                u[i] = t[i];
            }
            t = u;
        }
        t[n] = x;
        n++;
    }
}
