class A {
    final int[] t = new int[9];
    @IndexFor("t") int h;

    int f() {
        int k = h;
        int n = t.length;
        return t[n - k - 1];
    }
}
