class A {
    final int[] t;

    A(@NonNegative int n) {
        t = new int[n];
    }

    static int f(@Positive int n) {
        A a = new A(n);
        return a.t[n - 1];
    }
}
