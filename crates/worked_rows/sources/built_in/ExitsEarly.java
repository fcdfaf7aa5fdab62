/** An exit while a class is initialized. */
public class ExitsEarly {
    static class Held {
        static int field = 1;

        static {
            System.out.println("held");
            System.exit(-2147483648);
        }
    }

    static {
        System.out.println("early");
    }

    public static void main(String[] args) {
        System.out.println("main");
        System.out.println(Held.field);
    }
}
