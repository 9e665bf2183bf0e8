class A {
    int[] t = new int[9];

    void log(int x) {
        System.out.println(x);
    }

    int f(@NonNegative int i) {
        if (i < t.length) {
            log(i);
            return t[i];
        }
        return 0;
    }
}
