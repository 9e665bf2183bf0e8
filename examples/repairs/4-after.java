class A {
    static int f(int[] a) {
        int s = 0;
        for (int i = 0; i < a.length - 1; i += 2) {
            s += a[i + 1];
        }
        return s;
    }
}
