/** What String tells of its units: length, places, equality, hash, order, fronts. */
public class StringsRead {
    static void charAt(String text, int place) {
        try {
            System.out.println((int) text.charAt(place));
        } catch (StringIndexOutOfBoundsException e) {
            System.out.println("outside");
        }
    }

    static void lengths() {
        System.out.println("abc".length());
        System.out.println("".length());
        System.out.println("\ud83d\ude00".length());
        System.out.println("".isEmpty());
        System.out.println("\0".isEmpty());
        charAt("abc", 0);
        charAt("abc", 2);
        charAt("\u20ac\ud83d", 1);
        charAt("abc", 3);
        charAt("abc", -1);
        charAt("", 0);
        charAt("abc", 2147483647);
        charAt("abc", -2147483648);
    }

    static void equality() {
        String text = "abc";
        System.out.println(text.equals("abc"));
        System.out.println(text.equals(new String("abc")));
        System.out.println(text.equals("abd"));
        System.out.println(text.equals("ab"));
        System.out.println(text.equals("abcd"));
        System.out.println("".equals(""));
        System.out.println(text.equals(null));
        System.out.println(text.equals(new StringBuilder("abc")));
        System.out.println(text.equals(new Object()));
        System.out.println("abc".hashCode());
        System.out.println(new String("abc").hashCode());
        System.out.println("".hashCode());
        System.out.println("\0\0".hashCode());
        System.out.println("polygenelubricants".hashCode());
        System.out.println("\uffff\uffff\uffff\uffff".hashCode());
        System.out.println("Aa".hashCode() == "BB".hashCode());
        System.out.println(text.toString() == text);
    }

    static void compare(String one, String other) {
        try {
            System.out.println(one.compareTo(other));
        } catch (NullPointerException e) {
            System.out.println("no text");
        }
    }

    static void compareAny(Comparable<Object> one, Object other) {
        try {
            System.out.println(one.compareTo(other));
        } catch (NullPointerException e) {
            System.out.println("no object");
        } catch (ClassCastException e) {
            System.out.println("another class");
        }
    }

    static Comparable<Object> any(Object object) {
        return (Comparable<Object>) object;
    }

    static void order() {
        compare("abc", "abc");
        compare("abc", "abd");
        compare("b", "a");
        compare("ab", "abcde");
        compare("abcde", "ab");
        compare("", "x");
        compare("", "");
        compare("\0", "\uffff");
        compare("\uffff", "\0");
        compare("\ud83d\ude00", "\uffff");
        compare("Z", "a");
        compare("abc", null);
        compareAny(any("abc"), "abd");
        compareAny(any("abc"), "ab");
        compareAny(any("abc"), new StringBuilder("abc"));
        compareAny(any("abc"), 1);
        compareAny(any("abc"), null);
    }

    static void starts(String text, String front) {
        try {
            System.out.println(text.startsWith(front));
        } catch (NullPointerException e) {
            System.out.println("no text");
        }
    }

    static void fronts() {
        starts("abc", "ab");
        starts("abc", "abc");
        starts("abc", "");
        starts("", "");
        starts("abc", "abcd");
        starts("abc", "b");
        starts("", "a");
        starts("abc", null);
    }

    static void places() {
        String text = "abcab\ud83d\ude00\0\ude00";
        System.out.println(text.indexOf('a'));
        System.out.println(text.indexOf('c'));
        System.out.println(text.indexOf('x'));
        System.out.println(text.indexOf(0));
        System.out.println(text.indexOf(0x1f600));
        System.out.println(text.indexOf(0xd83d));
        System.out.println(text.indexOf(0xde00));
        System.out.println(text.indexOf(0x1f601));
        System.out.println(text.indexOf(0x110000));
        System.out.println(text.indexOf(-1));
        System.out.println(text.indexOf('a' + 65536));
        System.out.println("".indexOf('a'));
        System.out.println("\ude00\ud83d".indexOf(0x1f600));
    }

    static void sequence(CharSequence units) {
        System.out.print(units.length());
        System.out.print(units.charAt(1));
        System.out.println(units.toString());
    }

    public static void main(String[] args) {
        lengths();
        equality();
        order();
        fronts();
        places();
        sequence("xyz");
        sequence(new StringBuilder("xyz"));
        sequence(new StringBuffer("xyz"));
    }
}
