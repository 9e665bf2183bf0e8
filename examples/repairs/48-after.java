class A {
    int n;

    A() {
        n = 0;
    }

    void reset() {
        n = 0;
    }
}
