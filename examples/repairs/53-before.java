class A {
    static int[] f(@IntRange(from = 1, to = 1000000) int n, int x) {
        int[] b = new int[2 * n];
        b[n] = x;
        return b;
    }
}
