class A {
    static int[] f(@IntRange(from = 0, to = 1000000) int n) {
        int[] b = new int[n + n];
        for (int i = 0; i < n; i++) {
            b[2 * i] = i;
        }
        return b;
    }
}
