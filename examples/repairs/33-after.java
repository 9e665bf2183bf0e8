class A {
    static int[] make(@NonNegative int n) {
        return new int[n];
    }

    static int f(@NonNegative int n) {
        int[] a = make(n);
        int s = 0;
        for (int i = 0; i < a.length; i++) {
            s += a[i];
        }
        return s;
    }
}
