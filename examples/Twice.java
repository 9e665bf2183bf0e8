class A { static int twice(int n) { return n + n; } }
