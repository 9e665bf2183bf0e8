class A {
    static void f(int[] a) {
        int n = a.length;
        boolean go = true;
        while (go) {
            go = false;
            for (int i = 1; i < n; i++) {
                if (a[i - 1] > a[i]) {
                    int x = a[i];
                    a[i] = a[i - 1];
                    a[i - 1] = x;
                    go = true;
                }
            }
            n--;
        }
    }
}
