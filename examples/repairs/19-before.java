class A {
    static int f(int[][] m) {
        int s = 0;
        for (int i = 0; i < m.length; i++) {
            s += m[i][i];
        }
        return s;
    }
}
