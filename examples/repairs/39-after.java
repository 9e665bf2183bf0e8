class A {
    int[] t = new int[9];

    @SideEffectFree void zero(@IndexFor("t") int i) {
        t[i] = 0;
    }

    void f(@IndexFor("t") int i) {
        zero(i);
        t[i]++;
    }
}
