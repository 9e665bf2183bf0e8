class A {
    final int[] t = new int[9];
    @NonNegative int at;

    boolean more() {
        return at < t.length;
    }

    int f() {
        if (more()) {
            return t[at];
        }
        return 0;
    }
}
