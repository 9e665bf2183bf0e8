class A {
    int[] t = new int[9];

    void log(int x) {
        System.out.println(x);
    }

    int f(@NonNegative int i) {
        int[] u = t;
        if (i < u.length) {
            log(i);
            return u[i];
        }
        return 0;
    }
}
