class A {
    static int f(int @MinLen(2) [] a, int[] p, @IndexFor("#2") int i) {
        return a[p[i]];
    }

    static int g() {
        return f(new int[2], new int[] { 1, 0 }, 1);
    }
}
