class A {
    final int[] t = new int[9];
    @IndexOrHigh("t") int n;

    boolean isEmpty() {
        return n == 0;
    }

    int pop() {
        if (n == 0) {
            throw new X();
        }
        n--;
        return t[n];
    }
}
