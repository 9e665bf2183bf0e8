class A {
    static int[] f(@IntRange(from = 0, to = 9) int n) {
        int[] r = new int[n + n];
        for (int i = 0; i < n; i++) {
            r[i] = i;
        }
        for (int j = 0; j < n; j++) {
            r[n + j] = j;
        }
        return r;
    }
}
