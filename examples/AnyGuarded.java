class A { static int get(int[] a, int i) { { if (a == null || i < 0 || i >= a.length) throw new IndexOutOfBoundsException("guard"); return a[i]; } } }
