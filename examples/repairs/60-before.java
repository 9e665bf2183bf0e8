class A {
    final int[] t = new int[9];
    @IndexFor("t") int h;

    int f() {
        int n = t.length;
        int k = h;
        return t[n - k - 1];
    }
}
