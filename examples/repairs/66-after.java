class A {
    static @IndexOrLow("#1") int link(int[] next, int at) {
        if (at >= -1 && at < next.length) {
            return at;
        }
        throw new X();
    }

    static int last(int[] next, @IndexOrLow("#1") int from) {
        int at = from;
        int end = -1;
        while (at != -1) {
            end = at;
            at = link(next, next[at]);
        }
        return end;
    }
}
