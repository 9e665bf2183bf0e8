class A {
    int[] t = new int[9];
    @NonNegative int n;

    void f() {
        n++;
    }
}
