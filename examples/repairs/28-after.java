class A {
    final int[] t = new int[9];
    @IndexOrHigh("t") int at;

    int next() {
        if (at >= t.length) {
            throw new X();
        }
        int c = t[at];
        at++;
        return c;
    }

    int f() {
        if (at < t.length) {
            return next();
        }
        return 0;
    }
}
