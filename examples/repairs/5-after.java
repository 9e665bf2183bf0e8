class A {
    static int[] f(@IntRange(from = 0, to = 1000000) int n) {
        return new int[n + 1];
    }
}
