class A { static int f(int[] a, int[] b, @NonNegative int i) { int n = a.length; int m = b.length; int k = Math.min(n, m); if (i < k) { return a[i] + b[i]; } return 0; } }
