class A {
    final int[] k;
    final int[] v;

    A(@NonNegative int n) {
        k = new int[n];
        v = new int[n];
    }

    int f(@NonNegative int i) {
        if (i < k.length) {
            return v[i];
        }
        return 0;
    }
}
