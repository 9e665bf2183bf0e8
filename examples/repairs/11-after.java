class A {
    static int f(int @MinLen(1) [] a, int h) {
        return a[(h & 0x7fffffff) % a.length];
    }
}
