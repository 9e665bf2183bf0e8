class A {
    static int f(int[][] m, @IndexFor("#1") int r, @NonNegative int c) {
        if (c < m[r].length) {
            return m[r][c];
        }
        return 0;
    }
}
