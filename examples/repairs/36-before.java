class A {
    static int last(int[] a) {
        return a[a.length - 1];
    }

    static int f() {
        return last(new int[3]);
    }
}
