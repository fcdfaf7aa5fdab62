/** Constructors of String, and valueOf. */
public class StringsMade {
    static class Named {
        public String toString() {
            return "named";
        }
    }

    static void show(String text) {
        System.out.print(text.length());
        System.out.print(':');
        System.out.println(text);
    }

    static void copyText(String text) {
        try {
            show(new String(text));
        } catch (NullPointerException e) {
            System.out.println("no text");
        }
    }

    static void copyChars(char[] units) {
        try {
            show(new String(units));
        } catch (NullPointerException e) {
            System.out.println("no chars");
        }
    }

    static void copyPart(char[] units, int from, int count) {
        try {
            show(new String(units, from, count));
        } catch (StringIndexOutOfBoundsException e) {
            System.out.println("outside");
        } catch (NullPointerException e) {
            System.out.println("no chars");
        }
    }

    static void constructors() {
        show(new String());
        copyText("abc");
        copyText("");
        copyText("\u00e9\u20ac\ud83d\ude00");
        copyText(null);
        char[] letters = {'a', 'b', 'c', 'd'};
        String own = new String(letters);
        letters[0] = 'x';
        show(own);
        copyChars(letters);
        copyChars(new char[0]);
        copyChars(null);
        copyPart(letters, 1, 2);
        copyPart(letters, 0, 4);
        copyPart(letters, 4, 0);
        copyPart(letters, -1, 1);
        copyPart(letters, 3, 2);
        copyPart(letters, 0, -1);
        copyPart(letters, 5, 0);
        copyPart(letters, 1, 2147483647);
        copyPart(letters, -2147483648, -2147483648);
        copyPart(null, 0, 0);
        copyPart(null, -1, 9);
        System.out.println(new String("abc") == new String("abc"));
    }

    static void valuesOf() {
        show(String.valueOf(0));
        show(String.valueOf(-70));
        show(String.valueOf(2147483647));
        show(String.valueOf(-2147483648));
        show(String.valueOf(0L));
        show(String.valueOf(9223372036854775807L));
        show(String.valueOf(-9223372036854775808L));
        show(String.valueOf(4294967296L));
        show(String.valueOf('q'));
        show(String.valueOf('\u00e9'));
        System.out.println((int) String.valueOf('\0').charAt(0));
        System.out.println((int) String.valueOf('\ud83d').charAt(0));
        show(String.valueOf(true));
        show(String.valueOf(false));
        System.out.println(String.valueOf(12) == String.valueOf(12));
    }

    static void valuesOfReferences() {
        char[] units = {'o', 'n', 'e'};
        String text = String.valueOf(units);
        units[1] = 'r';
        show(text);
        show(String.valueOf(new char[0]));
        try {
            show(String.valueOf((char[]) null));
        } catch (NullPointerException e) {
            System.out.println("no chars");
        }
        show(String.valueOf((Object) "itself"));
        show(String.valueOf((Object) null));
        show(String.valueOf(new Named()));
        show(String.valueOf((Object) 128));
        Object object = "itself";
        System.out.println(String.valueOf(object) == object);
    }

    public static void main(String[] args) {
        constructors();
        valuesOf();
        valuesOfReferences();
    }
}
