class A {
    static int[] f(int[] a) {
        int[] c = new int[256];
        for (int i = 0; i < a.length; i++) {
            c[a[i]]++;
        }
        return c;
    }
}
