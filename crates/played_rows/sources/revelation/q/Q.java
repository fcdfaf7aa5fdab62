package q;

public class Q extends p.P {
    int f() { return 2; }
}
