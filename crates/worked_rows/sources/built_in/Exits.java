/** An exit: nothing runs behind it, no handler and no other part of the statement. */
public class Exits {
    static int leave(int status) {
        try {
            System.exit(status);
            System.out.println("not reached");
        } catch (Throwable thrown) {
            System.out.println("not caught");
        } finally {
            System.out.println("not done last");
        }
        return 1;
    }

    public static void main(String[] args) {
        System.out.print("before ");
        System.out.println(leave(3) + leave(4));
    }
}
