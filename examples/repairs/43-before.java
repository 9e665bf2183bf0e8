class A {
    int[] t = new int[9];
    @IndexOrHigh("t") int n;

    void clear() {
        t = new int[4];
        n = 0;
    }
}
