class A {
    final int @MinLen(1) [] t = new int[3];

    int at(@IndexFor("t") int i) {
        return t[i];
    }

    static int f(A a) {
        return a.at(0);
    }
}
