class A {
    static int[] f(@NonNegative int n) {
        return new int[n + 1];
    }
}
