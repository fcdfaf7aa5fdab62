/** Class: names, and assertions. */
public class Classes {
    interface Named {}

    static class Inner implements Named {
        static class Innermost {}
    }

    static int size(int count) {
        assert count > 5;
        return count;
    }

    static void name(Class<?> of) {
        System.out.println(of.getName());
    }

    static void arrays() {
        name(boolean[].class);
        name(char[].class);
        name(byte[].class);
        name(short[].class);
        name(int[].class);
        name(long[].class);
        name(int[][][].class);
        name(String[].class);
        name(Object[][].class);
        name(Inner[].class);
        name(new Named[1][2][].getClass());
        name(new int[2][2][0].getClass());
    }

    public static void main(String[] args) {
        name(Object.class);
        name(String.class);
        name("".getClass());
        name(java.io.IOException.class);
        name(Runnable.class);
        name(Classes.class);
        name(Named.class);
        name(Inner.class);
        name(Inner.Innermost.class);
        name(new Object() {}.getClass());
        name(new Inner().getClass());
        name(args.getClass());
        name(System.out.getClass());
        name(Class.class);
        name(new Object().getClass().getClass());
        name(new StringBuilder().getClass());
        name(((Object) 1).getClass());
        name(((Object) 'c').getClass());
        name(((Object) true).getClass());
        arrays();
        System.out.println(Classes.class.desiredAssertionStatus());
        System.out.println(int[].class.desiredAssertionStatus());
        System.out.println(String.class.desiredAssertionStatus());
        System.out.println(size(3));
        Class<?> none = null;
        try {
            name(none);
        } catch (NullPointerException e) {
            System.out.println("no class");
        }
    }
}
