class A {
    int[] t = new int[9];

    int f(A b, @NonNegative int i) {
        int[] u = t;
        if (i < u.length) {
            b.t = new int[9];
            return u[i];
        }
        return 0;
    }
}
