public class Exits {
    static int depth;

    static void down(int n) {
        depth++;
        try {
            if (n == 0) {
                System.out.println("at " + depth);
                System.exit(3);
            }
            down(n - 1);
        } finally {
            System.out.println("not reached");
        }
    }

    public static void main(String[] args) {
        System.err.println("before");
        System.out.flush();
        down(4);
    }
}
