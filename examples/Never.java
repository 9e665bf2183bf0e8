class A { static int f(int[] a, @NonNegative @NegativeIndexFor("#1") int i) { return a[i + 99]; } }
