class A {
    int[] t = new int[9];
    @IndexOrHigh("t") int n;

    void clear() {
        n = 0;
        t = new int[4];
    }
}
