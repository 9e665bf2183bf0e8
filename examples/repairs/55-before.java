class A {
    static int[] f(@IntRange(from = 0, to = 9) int n) {
        int[] r = new int[n + n];
        int k = 0;
        for (int i = 0; i < n; i++) {
            r[k] = i;
            k++;
        }
        for (int j = 0; j < n; j++) {
            r[k] = j;
            k++;
        }
        return r;
    }
}
