class A {
    final int[] t = new int[9];

    int size() {
        return t.length;
    }

    int f(@NonNegative int i) {
        if (i < size()) {
            return t[i];
        }
        return 0;
    }
}
