class A { int q = (new int[] { 5 })[this.k]; final int k = 3; static int f() { return new A().q; } }
