class A {
    static int[][] f(@IntRange(from = 0, to = 1000) int n) {
        int[][] m = new int[n][];
        for (int i = 0; i < n; i++) {
            int[] row = new int[n];
            row[i] = 1;
            m[i] = row;
        }
        return m;
    }
}
