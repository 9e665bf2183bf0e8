class A {
    static int[] f(int[] a, int[] b) {
        int n = a.length;
        int m = b.length;
        if (n > 1000000 || m > 1000000) {
            throw new X();
        }
        int[] r = new int[n + m];
        int i = 0;
        int j = 0;
        while (i < n && j < m) {
            if (a[i] <= b[j]) {
                r[i + j] = a[i];
                i++;
            } else {
                r[i + j] = b[j];
                j++;
            }
        }
        while (i < n) {
            r[i + j] = a[i];
            i++;
        }
        while (j < m) {
            r[i + j] = b[j];
            j++;
        }
        return r;
    }
}
