class A {
    int[] t = new int[4];
    @IndexOrHigh("t") int n;

    @EnsuresLTLengthOf(value = "n", targetValue = "t") void grow() {
        int m = n;
        if (m > 1000000) {
            throw new X();
        }
        int[] u = new int[m + m + 1];
        for (int i = 0; i < m; i++) {
            u[i] = t[i];
        }
        t = u;
    }

    void add(int x) {
        if (n == t.length) {
            grow();
        }
        t[n] = x;
        n++;
    }
}
