class A {
    static @SearchIndexFor("#1") int f(int[] a, @IndexOrHigh("#1") int i) {
        return -(i + 1);
    }
}
