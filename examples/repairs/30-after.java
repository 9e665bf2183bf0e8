class A {
    static @LTLengthOf("#1") int find(int[] a) {
        for (int i = 0; i < a.length; i++) {
            if (a[i] == 0) {
                return i;
            }
        }
        return -1;
    }

    static int f(int[] a) {
        int i = find(a);
        if (i >= 0) {
            return a[i];
        }
        return 0;
    }
}
