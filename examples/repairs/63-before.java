class A {
    static int f(int[] a) {
        int at = -1;
        boolean found = false;
        for (int i = 0; i < a.length; i++) {
            if (a[i] == 0) {
                at = i;
                found = true;
            }
        }
        if (found) {
            return a[at];
        }
        return 0;
    }
}
