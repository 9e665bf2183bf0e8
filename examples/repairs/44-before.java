class A {
    final int n;
    final int[] t;

    A(@NonNegative int k) {
        n = k;
        t = new int[k];
    }

    int f(@NonNegative int i) {
        if (i < n) {
            return t[i];
        }
        return 0;
    }
}
