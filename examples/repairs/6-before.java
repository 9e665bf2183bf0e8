class A {
    static int[] f(int[] a, int[] b) {
        return new int[a.length + b.length];
    }
}
