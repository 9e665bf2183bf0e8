class A {
    static int f(int[] a, int @SameLen("#1") [] b) {
        int s = 0;
        for (int i = 0; i < a.length; i++) {
            s += a[i] * b[i];
        }
        return s;
    }
}
