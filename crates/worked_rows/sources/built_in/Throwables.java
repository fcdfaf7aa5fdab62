/** Throwable and some classes below it: messages, causes, texts, and which handlers take them. */
public class Throwables {
    static class Own extends RuntimeException {
        final int code;

        Own(int code) {
            super("code");
            this.code = code;
        }

        public String getMessage() {
            return super.getMessage().concat(String.valueOf(code));
        }
    }

    static class Bare extends Exception {}

    static void show(Throwable thrown) {
        System.out.println(thrown.getMessage());
        System.out.println(thrown.toString());
        System.out.println(thrown);
        Throwable cause = thrown.getCause();
        System.out.println(cause == null ? "no cause" : cause.toString());
    }

    static void constructors() {
        show(new Throwable());
        show(new Throwable("message"));
        show(new Throwable((String) null));
        show(new Throwable(""));
        show(new Throwable("message", new Exception("cause")));
        show(new Throwable("message", null));
        show(new Throwable(null, new Error()));
        show(new Throwable((Throwable) null));
        Error cause = new Error("cause");
        System.out.println(new Throwable(cause).getCause() == cause);
        System.out.println(new Exception(cause).getCause() == cause);
        System.out.println(new Exception("message", cause).getCause() == cause);
        String message = "a message";
        System.out.println(new RuntimeException(message).getMessage() == message);
        show(new Exception());
        show(new RuntimeException("message", new RuntimeException("cause")));
        show(new Error("message"));
        show(new java.io.IOException("message", new ArithmeticException()));
        show(new IllegalArgumentException("message", new NumberFormatException("cause")));
        show(new IllegalStateException());
        show(new NullPointerException("message"));
        show(new StackOverflowError("message"));
        show(new AssertionError());
        show(new AssertionError((Object) "detail"));
        show(new Own(7));
        show(new Bare());
    }

    static void take(Throwable thrown) {
        try {
            throw thrown;
        } catch (ArithmeticException e) {
            System.out.println("arithmetic");
        } catch (IndexOutOfBoundsException e) {
            System.out.println("index");
        } catch (RuntimeException e) {
            System.out.println("runtime");
        } catch (Exception e) {
            System.out.println("exception");
        } catch (LinkageError e) {
            System.out.println("linkage");
        } catch (Error e) {
            System.out.println("error");
        } catch (Throwable e) {
            System.out.println("throwable");
        }
    }

    static void handlers() {
        take(new ArithmeticException());
        take(new IndexOutOfBoundsException());
        take(new ArrayIndexOutOfBoundsException("1"));
        take(new StringIndexOutOfBoundsException());
        take(new ClassCastException());
        take(new Own(1));
        take(new Bare());
        take(new java.io.IOException());
        take(new CloneNotSupportedException());
        take(new NoSuchMethodError());
        take(new ExceptionInInitializerError());
        take(new OutOfMemoryError());
        take(new AssertionError());
        take(new Throwable());
        take(null);
    }

    static String nested(int depth) {
        try {
            if (depth == 0) {
                throw new Bare();
            }
            return nested(depth - 1);
        } catch (Bare e) {
            throw new IllegalStateException("lowest", e);
        } catch (IllegalStateException e) {
            throw new IllegalStateException("above ".concat(e.getMessage()), e);
        }
    }

    public static void main(String[] args) {
        constructors();
        handlers();
        try {
            nested(3);
        } catch (IllegalStateException e) {
            int depth = 0;
            for (Throwable t = e; t != null; t = t.getCause()) {
                depth++;
            }
            System.out.println(depth);
            System.out.println(e.getMessage());
        }
        try {
            System.out.println(1 / args.length);
        } catch (ArithmeticException e) {
            show(e);
        }
    }
}
