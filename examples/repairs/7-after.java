class A {
    static int[] f(@NonNegative int[] a) {
        int n = 0;
        for (int i = 0; i < a.length; i++) {
            n += a[i];
        }
        if (n < 0) {
            throw new X();
        }
        return new int[n];
    }
}
