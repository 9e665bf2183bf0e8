class A {
    int size;

    int count() {
        return size;
    }
}
