class A {
    int[] t = new int[9];
    A next;

    int f(@NonNegative int i) {
        if (i < next.t.length) {
            return next.t[i];
        }
        return 0;
    }
}
