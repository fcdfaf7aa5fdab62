class A {
    static int s = 1;

    int f() { return 1; }

    private int g() { return 2; }

    int h() { return g(); }

    static int t() { return 3; }

    static { s = 2; }
}

class B extends A {
    static int own = 7;

    int f() { return 5; }

    int g() { return 6; }

    static { own = 8; }
}

class C extends B {
    int f() { return 9; }
}

class Hidden extends A {
    int f() { return 4; }
}

class Low {
    public int hashCode() { return 4; }
}

class Lower extends Low {
    int kept(int[] xs) {
        xs.clone();
        return super.hashCode();
    }
}

interface I {
    int i();
}

class X implements I {
    public int i() { return 1; }
}

class Y implements I {
    public int i() { return 2; }
}

class Never {
    int f() { return 0; }

    static { int x = 1; }
}

public class Main {
    static int ofA(A a) { return a.f() + a.h(); }

    static int ofI(I i) { return i.i(); }

    static int through() { return B.t(); }

    static int made() { return new B().f(); }

    static int never(Never n) { return n.f(); }

    static int field() { return A.s; }

    public static void main(String[] words) { }
}
