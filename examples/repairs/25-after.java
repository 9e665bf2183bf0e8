class A {
    final int[] t = new int[9];
    @NonNegative int at;

    @EnsuresLTLengthOfIf(expression = "at", result = true, targetValue = "t") boolean more() {
        return at < t.length;
    }

    int f() {
        if (more()) {
            return t[at];
        }
        return 0;
    }
}
