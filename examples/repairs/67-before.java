class A {
    int size;

    int size() {
        return size;
    }
}
