class A {
    static int f(int @MinLen(1) [] a) {
        return a[a.length >> 1];
    }
}
