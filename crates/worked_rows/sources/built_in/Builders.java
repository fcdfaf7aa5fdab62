/** StringBuilder; Buffers is the same text over StringBuffer. */
public class Builders {
    static class Named {
        public String toString() {
            return "named";
        }
    }

    static void show(StringBuilder builder) {
        System.out.print(builder.length());
        System.out.print(':');
        System.out.println(builder.toString());
    }

    static void ofCapacity(int capacity) {
        try {
            show(new StringBuilder(capacity));
        } catch (NegativeArraySizeException e) {
            System.out.println("negative");
        }
    }

    static void ofText(String text) {
        try {
            show(new StringBuilder(text));
        } catch (NullPointerException e) {
            System.out.println("no text");
        }
    }

    static void constructors() {
        show(new StringBuilder());
        ofCapacity(0);
        ofCapacity(1000);
        ofCapacity(-1);
        ofCapacity(-2147483648);
        ofText("abc");
        ofText("");
        ofText(null);
    }

    static void appendChars(StringBuilder builder, char[] units) {
        try {
            System.out.println(builder.append(units) == builder);
        } catch (NullPointerException e) {
            System.out.println("no chars");
        }
    }

    static void numbers() {
        StringBuilder builder = new StringBuilder();
        builder.append(0).append(' ').append(2147483647).append(' ').append(-2147483648);
        show(builder);
        builder.append(' ').append(9223372036854775807L).append(' ').append(-9223372036854775808L);
        builder.append(' ').append(4294967297L).append(' ').append(0L);
        show(builder);
        System.out.println(builder.append(1) == builder);
        System.out.println(builder.append(1L) == builder);
    }

    static void texts() {
        StringBuilder builder = new StringBuilder("<");
        System.out.println(builder.append("text") == builder);
        System.out.println(builder.append("") == builder);
        System.out.println(builder.append((String) null) == builder);
        System.out.println(builder.append('c') == builder);
        System.out.println(builder.append('\u20ac') == builder);
        System.out.println(builder.append(true) == builder);
        System.out.println(builder.append(false) == builder);
        show(builder);
        appendChars(builder, new char[] {'x', 'y'});
        appendChars(builder, new char[0]);
        appendChars(builder, null);
        System.out.println(builder.append((Object) "object") == builder);
        System.out.println(builder.append((Object) null) == builder);
        builder.append(new Named()).append((Object) Integer.valueOf(-128)).append((Object) new StringBuilder("inner"));
        show(builder);
        builder.append(builder.toString());
        show(builder);
        show(new StringBuilder().append('\ud83d').append('\ude00').append("\0"));
    }

    static void charAt(StringBuilder builder, int place) {
        try {
            System.out.println((int) builder.charAt(place));
        } catch (StringIndexOutOfBoundsException e) {
            System.out.println("outside");
        }
    }

    static void setCharAt(StringBuilder builder, int place, char unit) {
        try {
            builder.setCharAt(place, unit);
        } catch (StringIndexOutOfBoundsException e) {
            System.out.println("outside");
        }
        show(builder);
    }

    static void places() {
        StringBuilder builder = new StringBuilder("abc");
        charAt(builder, 0);
        charAt(builder, 2);
        charAt(builder, 3);
        charAt(builder, -1);
        charAt(builder, -2147483648);
        charAt(new StringBuilder(), 0);
        setCharAt(builder, 0, 'x');
        setCharAt(builder, 2, '\u20ac');
        setCharAt(builder, 3, 'y');
        setCharAt(builder, -1, 'y');
        setCharAt(new StringBuilder(10), 0, 'y');
    }

    static void setLength(StringBuilder builder, int length) {
        try {
            builder.setLength(length);
        } catch (StringIndexOutOfBoundsException e) {
            System.out.println("negative");
        }
        System.out.print(builder.length());
        for (int i = 0; i < builder.length(); i++) {
            System.out.print(' ');
            System.out.print((int) builder.charAt(i));
        }
        System.out.println();
    }

    static void deleteCharAt(StringBuilder builder, int place) {
        try {
            System.out.println(builder.deleteCharAt(place) == builder);
        } catch (StringIndexOutOfBoundsException e) {
            System.out.println("outside");
        }
        show(builder);
    }

    static void lengths() {
        StringBuilder builder = new StringBuilder("abcd");
        setLength(builder, 4);
        setLength(builder, 2);
        setLength(builder, 5);
        setLength(builder, -1);
        setLength(builder, -2147483648);
        setLength(builder, 0);
        setLength(builder, 1);
        builder = new StringBuilder("abcd");
        deleteCharAt(builder, 1);
        deleteCharAt(builder, 2);
        deleteCharAt(builder, 0);
        deleteCharAt(builder, 1);
        deleteCharAt(builder, -1);
        deleteCharAt(builder, 0);
        deleteCharAt(builder, 0);
    }

    static void identities() {
        StringBuilder builder = new StringBuilder("abc");
        String text = builder.toString();
        System.out.println(text == builder.toString());
        builder.append('d');
        System.out.println(text);
        System.out.println(builder.equals(builder));
        System.out.println(builder.equals(new StringBuilder("abcd")));
        System.out.println(builder.hashCode() == System.identityHashCode(builder));
        System.out.println((Object) builder);
        System.out.print((Object) builder);
        System.out.println();
    }

    public static void main(String[] args) {
        constructors();
        numbers();
        texts();
        places();
        lengths();
        identities();
    }
}
