/** PrintStream: print, println, flush. */
public class Prints {
    static class Named {
        public String toString() {
            return "named";
        }
    }

    static void values() {
        System.out.print(true);
        System.out.print(false);
        System.out.println(true);
        System.out.println(false);
        System.out.print('c');
        System.out.print('\u00e9');
        System.out.println('\u20ac');
        System.out.println('\t');
        System.out.println('\0');
        System.out.print('\n');
        System.out.print(0);
        System.out.print(-1);
        System.out.print(2147483647);
        System.out.println(-2147483648);
        System.out.print(0L);
        System.out.print(-4294967296L);
        System.out.print(9223372036854775807L);
        System.out.println(-9223372036854775808L);
    }

    static void texts() {
        System.out.print("text");
        System.out.print("");
        System.out.println("\u00e9\u20ac\ud83d\ude00");
        System.out.println("");
        System.out.print((String) null);
        System.out.println((String) null);
        System.out.println("two\nlines\r\n\0");
        System.out.println("high \ud83d alone, low \ude00 alone, wrong order \ude00\ud83d.");
        System.out.println("\ud83d\ud83d\ude00\ude00.");
    }

    static void printChars(char[] units) {
        try {
            System.out.print(units);
            System.out.println(units);
        } catch (NullPointerException e) {
            System.out.println("no chars");
        }
    }

    static void printlnChars(char[] units) {
        try {
            System.out.println(units);
        } catch (NullPointerException e) {
            System.out.println("no chars");
        }
    }

    static void references() {
        printChars(new char[] {'x', '\u20ac', '\ud83d', '\ude00'});
        printChars(new char[0]);
        printChars(null);
        printlnChars(null);
        System.out.print((Object) "object");
        System.out.println((Object) "object");
        System.out.print((Object) null);
        System.out.println((Object) null);
        System.out.print(new Named());
        System.out.println(new Named());
        System.out.print((Object) 1);
        System.out.println((Object) 2L);
        System.out.println(new StringBuilder("built"));
    }

    public static void main(String[] args) {
        values();
        texts();
        references();
        System.out.println();
        System.out.flush();
        for (int i = 0; i < 3000; i++) {
            System.out.print(i);
            System.out.print(i % 10 == 9 ? "\n" : " ");
        }
        java.io.PrintStream none = null;
        try {
            none.println("not printed");
        } catch (NullPointerException e) {
            System.out.println("no stream");
        }
        System.out.print("no line feed at the end");
        System.out.flush();
    }
}
