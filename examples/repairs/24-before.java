class A {
    final int[] t = new int[9];

    int[] all() {
        return t;
    }

    int f(@NonNegative int i) {
        if (i < all().length) {
            return all()[i];
        }
        return 0;
    }
}
