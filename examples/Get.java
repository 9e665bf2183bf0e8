class A { static int get(int[] a, @IndexFor("#1") int i) { return a[i]; } }
