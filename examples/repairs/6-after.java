class A {
    static int[] f(int[] a, int[] b) {
        if (a.length > 1000000000) {
            throw new X();
        }
        if (b.length > 1000000000) {
            throw new X();
        }
        return new int[a.length + b.length];
    }
}
