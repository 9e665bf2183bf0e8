class A {
    static int f(int @MinLen(1) [] a, int h) {
        int r = h % a.length;
        if (r < 0) {
            r += a.length;
        }
        return a[r];
    }
}
