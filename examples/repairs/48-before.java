class A {
    int n;

    A() {
        reset();
    }

    void reset() {
        n = 0;
    }
}
