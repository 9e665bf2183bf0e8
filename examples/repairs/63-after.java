class A {
    static int f(int[] a) {
        int at = -1;
        for (int i = 0; i < a.length; i++) {
            if (a[i] == 0) {
                at = i;
            }
        }
        if (at >= 0) {
            return a[at];
        }
        return 0;
    }
}
