class A {
    static int last(int[] next, @IndexOrLow("#1") int from) {
        int at = from;
        int end = -1;
        while (at != -1) {
            end = at;
            at = next[at];
        }
        return end;
    }
}
