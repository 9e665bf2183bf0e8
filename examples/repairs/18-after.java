class A {
    static int f(int[][] m, @IndexFor("#1") int r, @NonNegative int c) {
        int[] row = m[r];
        if (c < row.length) {
            return row[c];
        }
        return 0;
    }
}
