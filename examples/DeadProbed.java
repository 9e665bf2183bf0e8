class A { static int f(int @MinLen(9) [] a) { if (a.length > 8) { (new int[0])[0] = 1; return 0; } (new int[0])[0] = 2; return a[a.length]; } }
