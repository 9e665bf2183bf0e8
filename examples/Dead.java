class A { static int f(int @MinLen(9) [] a) { if (a.length > 8) { return 0; } return a[a.length]; } }
