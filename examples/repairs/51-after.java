class A {
    static int f(int @MinLen(1) [] a, int h) {
        int r = h % a.length;
        if (r < 0) {
            r += a.length;
        }
        if (r >= 0) {
            return a[r];
        }
        return 0;
    }
}
