class A {
    int[] t = new int[9];
    @IndexOrHigh("t") int n;

    void f() {
        if (n == t.length) {
            throw new X();
        }
        n++;
    }
}
