class A {
    final int[] t = new int[9];

    int[] all() {
        return t;
    }

    int f(@NonNegative int i) {
        int[] u = all();
        if (i < u.length) {
            return u[i];
        }
        return 0;
    }
}
