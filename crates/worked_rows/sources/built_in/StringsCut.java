/** What String makes of itself: parts, joined texts, interned texts, its units. */
public class StringsCut {
    static void show(String text) {
        System.out.print(text.length());
        System.out.print(':');
        System.out.println(text);
    }

    static void from(String text, int from) {
        try {
            String part = text.substring(from);
            show(part);
            System.out.println(part == text);
        } catch (StringIndexOutOfBoundsException e) {
            System.out.println("outside");
        }
    }

    static void between(String text, int from, int to) {
        try {
            String part = text.substring(from, to);
            show(part);
            System.out.println(part == text);
        } catch (StringIndexOutOfBoundsException e) {
            System.out.println("outside");
        }
    }

    static void parts() {
        from("abcd", 0);
        from("abcd", 1);
        from("abcd", 3);
        from("abcd", 4);
        from("abcd", 5);
        from("abcd", -1);
        from("", 0);
        from("", 1);
        from("abcd", -2147483648);
        between("abcd", 0, 4);
        between("abcd", 0, 3);
        between("abcd", 1, 4);
        between("abcd", 1, 3);
        between("abcd", 2, 2);
        between("abcd", 4, 4);
        between("abcd", 3, 1);
        between("abcd", -1, 2);
        between("abcd", 1, 5);
        between("abcd", 5, 5);
        between("abcd", -2147483648, 2147483647);
        between("", 0, 0);
        between("\ud83d\ude00", 0, 1);
    }

    static void join(String one, String other) {
        try {
            String both = one.concat(other);
            show(both);
            System.out.println(both == one);
            System.out.println(both == other);
        } catch (NullPointerException e) {
            System.out.println("no text");
        }
    }

    static void joined() {
        join("ab", "cd");
        join("ab", "");
        join("", "ab");
        join("ab", "ab");
        join("\ud83d", "\ude00");
        join("ab", null);
    }

    static void interned() {
        String literal = "one literal";
        String copy = new String(literal);
        System.out.println(copy == literal);
        System.out.println(copy.intern() == literal);
        System.out.println(literal.intern() == literal);
        System.out.println("one ".concat("literal") == literal);
        System.out.println("one ".concat("literal").intern() == literal);
        System.out.println("one " + "literal" == literal);
        String made = String.valueOf(40).concat("2");
        System.out.println(made.intern() == made.intern());
        System.out.println(made.intern() == "402");
        System.out.println(made.intern().equals(made));
        System.out.println(new String().intern() == "");
    }

    static void units(String text) {
        char[] units = text.toCharArray();
        System.out.print(units.length);
        for (int i = 0; i < units.length; i++) {
            System.out.print(' ');
            System.out.print((int) units[i]);
            units[i] = '-';
        }
        System.out.println();
        System.out.println(text);
        System.out.println(units);
        System.out.println(text.toCharArray() == text.toCharArray());
    }

    public static void main(String[] args) {
        parts();
        joined();
        interned();
        units("abc");
        units("");
        units("\u00e9\u20ac\ud83d\ude00");
    }
}
