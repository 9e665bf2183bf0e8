class A {
    int[] t = new int[9];
    A next;

    int f(@NonNegative int i) {
        int[] u = next.t;
        if (i < u.length) {
            return u[i];
        }
        return 0;
    }
}
