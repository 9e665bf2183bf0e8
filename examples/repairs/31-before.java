class A {
    static int[] blank(int[] a) {
        return new int[a.length];
    }

    static int f(int[] a, @IndexFor("#1") int i) {
        return blank(a)[i];
    }
}
