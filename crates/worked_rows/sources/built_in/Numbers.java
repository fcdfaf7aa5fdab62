/** The numbers of objects, in the order in which they are made: 1 to 4 are there before, 5 is the argument of main. */
public class Numbers {
    static class Alike {
        public int hashCode() {
            return 255;
        }
    }

    enum Two {
        A,
        B
    }

    static void show(Object object) {
        System.out.println(System.identityHashCode(object));
    }

    static void objects() {
        Object first = new Object();
        System.out.println(first.hashCode());
        System.out.println(first.toString());
        System.out.println(first);
        show(first.toString());
        Object alike = new Alike();
        System.out.println(alike.hashCode());
        show(alike);
        System.out.println(alike.toString());
    }

    static void arrays() {
        int[][] grid = new int[2][3];
        show(grid);
        show(grid[0]);
        show(grid[1]);
        System.out.println(grid.toString());
        System.out.println(new String[1].toString());
        System.out.println(grid[0].clone().hashCode());
    }

    static void texts() {
        String literal = "literal";
        show(literal);
        show("literal");
        String made = new String(literal);
        show(made);
        show(made.intern());
        String other = literal.concat("s");
        show(other);
        show(other.intern());
        show(other.intern());
        show("literals");
        show(literal.concat(""));
        show("");
        show(literal.substring(0));
        show(literal.substring(1));
        show(literal.toString());
        show(String.valueOf(true));
        show(String.valueOf(true));
        show(literal.toCharArray());
    }

    static void boxes() {
        show(Integer.valueOf(5));
        show(Integer.valueOf(5));
        show(Integer.valueOf(500));
        show(Integer.valueOf(500));
        show(Long.valueOf(5));
        show(Character.valueOf('a'));
        show(Character.valueOf('\u0080'));
        show(Boolean.valueOf(true));
        show(Boolean.valueOf(false));
        show(Boolean.valueOf(true));
        System.out.println(Integer.valueOf(5).hashCode());
        System.out.println(Integer.toString(7));
    }

    static void builders() {
        StringBuilder builder = new StringBuilder();
        show(builder);
        show(builder.append(12));
        System.out.println(builder.hashCode());
        show(builder.toString());
        show(builder.toString());
        show("n" + builder.length());
    }

    static void classes() {
        show(new Object().getClass());
        show(Object.class);
        show(String.class);
        show("x".getClass());
        show(int[].class);
        System.out.println(Object.class.hashCode());
        System.out.println(Object.class.toString());
        show(Object.class.getName());
        show(Object.class.getClass());
        show(Class.class);
        System.out.println(String.class);
    }

    static void thrown(int zero) {
        show(new Exception());
        Exception other = new Exception("message");
        show(other);
        show(other.getMessage());
        System.out.println(other.toString());
        show(other.toString());
        int[] none = null;
        try {
            none[0] = 1;
        } catch (NullPointerException e) {
            show(e);
        }
        try {
            zero = 1 / zero;
        } catch (ArithmeticException e) {
            show(e);
            show(e.getMessage());
        }
        int[] three = new int[3];
        try {
            three[7] = 1;
        } catch (ArrayIndexOutOfBoundsException e) {
            show(e);
            show(e.getMessage());
        }
        try {
            "x".charAt(9);
        } catch (StringIndexOutOfBoundsException e) {
            show(e);
            show(e.getMessage());
        }
        try {
            show(new int[5000000]);
        } catch (OutOfMemoryError e) {
            show(e);
        }
        show(new Object());
    }

    static void constants() {
        System.out.println(Two.B.hashCode());
        show(Two.B.name());
        show(Two.values());
        System.out.println(Two.A.hashCode());
    }

    public static void main(String[] args) {
        show(System.in);
        show(System.out);
        show(System.err);
        show(args);
        show(null);
        System.out.println(System.in.hashCode());
        System.out.println(args.hashCode());
        objects();
        arrays();
        texts();
        boxes();
        builders();
        classes();
        thrown(0);
        constants();
    }
}
