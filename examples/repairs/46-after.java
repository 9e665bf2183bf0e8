class A {
    final int[] t;

    A(@NonNegative int n) {
        t = new int[n];
    }

    static int f(@Positive int n) {
        A a = new A(n);
        if (n > a.t.length) {
            throw new X();
        }
        return a.t[n - 1];
    }
}
