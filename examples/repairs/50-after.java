class A {
    static @IndexOrHigh("#1") int f(int[] a, @NegativeIndexFor("#1") int r) {
        return ~r;
    }
}
