class A {
    static int f(int @MinLen(1) [] a, int h) {
        if (h < 0) {
            h = -h;
        }
        return a[h % a.length];
    }
}
