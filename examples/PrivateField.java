class n { static int k() { return 1; } }
class B { @IntRange(from = 0, to = 0) int k() { return 0; } }
class P { private B n = new B(); }
class A extends P { int g() { return (new int[1])[n.k()]; } static int f() { return new A().g(); } }
