class A {
    static void f(int[] a, int[] b) {
        for (int i = 0; i < a.length; i++) {
            b[i + 1] = a[i];
        }
    }
}
