class A {
    int[] t = new int[9];

    int f(A b, @NonNegative int i) {
        if (i < t.length) {
            b.t = new int[9];
            return t[i];
        }
        return 0;
    }
}
