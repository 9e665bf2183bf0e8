class A {
    final int[] t = new int[9];

    @LTEqLengthOf("t") int size() {
        return t.length;
    }

    int f(@NonNegative int i) {
        if (i < size()) {
            return t[i];
        }
        return 0;
    }
}
