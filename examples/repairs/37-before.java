class A {
    static @NonNegative @LessThan("#1") int below(@Positive int k) {
        return k / 2;
    }

    static void g(int i, @LessThan("#1") int j) { }
    static void f(int i, @Positive int k) {
        if (k < i) {
            int j = below(k);
            g(i, j);
        }
    }
}
