class A {
    static int[][] f(@IntRange(from = 0, to = 1000) int n) {
        int[][] m = new int[n][];
        for (int i = 0; i < n; i++) {
            m[i] = new int[n];
            m[i][i] = 1;
        }
        return m;
    }
}
