/** Boolean and Math. */
public class Booleans {
    static void parse(String text) {
        System.out.println(Boolean.parseBoolean(text));
    }

    static void parsing() {
        parse("true");
        parse("TRUE");
        parse("tRuE");
        parse("false");
        parse("");
        parse("tru");
        parse("truer");
        parse(" true");
        parse("1");
        parse("yes");
        parse("\u0074rue");
        parse("\uff54rue");
        parse(null);
    }

    static void boxes() {
        System.out.println(Boolean.valueOf(true) == Boolean.valueOf(true));
        System.out.println(Boolean.valueOf(false) == Boolean.valueOf(false));
        System.out.println(Boolean.valueOf(true) == Boolean.valueOf(false));
        Boolean yes = true;
        Boolean no = false;
        System.out.println(yes.booleanValue());
        System.out.println(no.booleanValue());
        System.out.println(yes.hashCode());
        System.out.println(no.hashCode());
        System.out.println(yes.toString());
        System.out.println(no.toString());
        System.out.println((Object) yes);
        System.out.println(yes.equals(true));
        System.out.println(yes.equals(no));
        System.out.println(no.equals(false));
        System.out.println(yes.equals(1));
        System.out.println(yes.equals("true"));
        System.out.println(yes.equals(null));
    }

    static void ints() {
        System.out.println(Math.abs(5));
        System.out.println(Math.abs(-5));
        System.out.println(Math.abs(0));
        System.out.println(Math.abs(2147483647));
        System.out.println(Math.abs(-2147483648));
        System.out.println(Math.max(-1, 1));
        System.out.println(Math.max(-2147483648, 2147483647));
        System.out.println(Math.max(3, 3));
        System.out.println(Math.min(-1, 1));
        System.out.println(Math.min(2147483647, -2147483648));
        System.out.println(Math.min(3, 3));
    }

    static void longs() {
        System.out.println(Math.abs(5L));
        System.out.println(Math.abs(-4294967296L));
        System.out.println(Math.abs(-2147483648L));
        System.out.println(Math.abs(9223372036854775807L));
        System.out.println(Math.abs(-9223372036854775808L));
        System.out.println(Math.max(-4294967295L, 1L));
        System.out.println(Math.max(4294967296L, 1L));
        System.out.println(Math.max(-9223372036854775808L, 9223372036854775807L));
        System.out.println(Math.min(4294967296L, 1L));
        System.out.println(Math.min(-4294967295L, 1L));
        System.out.println(Math.min(9223372036854775807L, -9223372036854775808L));
    }

    public static void main(String[] args) {
        parsing();
        boxes();
        ints();
        longs();
    }
}
