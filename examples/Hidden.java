class A { static int f(int[] a, int n) { @IndexFor("a") int i = n; return a[i]; } }
