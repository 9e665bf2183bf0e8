class A {
    static int f(int[][] m) {
        int s = 0;
        for (int i = 0; i < m.length; i++) {
            int[] row = m[i];
            if (i < row.length) {
                s += row[i];
            }
        }
        return s;
    }
}
