package p;

public class P {
    int f() { return 1; }

    public static int call(P x) { return x.f(); }
}
