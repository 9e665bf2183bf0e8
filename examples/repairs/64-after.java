class A {
    static int f(int @MinLen(2) [] a, @IntRange(from = 0, to = 1) int[] p, @IndexFor("#2") int i) {
        return a[p[i]];
    }

    static int g() {
        return f(new int[2], new @IntRange(from = 0, to = 1) int[] { 1, 0 }, 1);
    }
}
