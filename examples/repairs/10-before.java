class A {
    static int f(int[] a, @IndexFor("#1") int i) {
        return a[(i + a.length - 1) % a.length];
    }
}
