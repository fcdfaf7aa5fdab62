class Later {
}

public class SecondAttempt {
    static boolean attempt(Object o) {
        return o instanceof Later;
    }

    static Object cast(Object o) {
        return (Later) o;
    }

    public static void main(String[] args) {
        System.out.println(attempt(null));
        System.out.println(cast(null) == null);
        System.out.println(attempt("text"));
        System.out.println(attempt(new Later()));
        System.out.println(cast(new Later()) != null);
    }
}
