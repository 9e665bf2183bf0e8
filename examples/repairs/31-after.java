class A {
    static int @SameLen("#1") [] blank(int[] a) {
        int[] b = new int[a.length];
        return b;
    }

    static int f(int[] a, @IndexFor("#1") int i) {
        return blank(a)[i];
    }
}
