/** Texts that are new objects at each call, surrogates over two prints, a text that is null, and the second output. */
public class OwnTexts {
    enum One {
        CONSTANT
    }

    static class Nameless {
        public String toString() {
            return null;
        }
    }

    static void identities() {
        String made = "x".concat("y1");
        System.out.println(made.intern() == made);
        System.out.println(made.intern() == "xy1");
        System.out.println(made == "xy1");
        System.out.println(String.valueOf(true) == String.valueOf(true));
        System.out.println(Boolean.valueOf(true).toString() == Boolean.valueOf(true).toString());
        System.out.println(Character.toString('a') == Character.toString('a'));
        System.out.println(Integer.toHexString(7) == Integer.toHexString(7));
        System.out.println(Object.class.getName() == Object.class.getName());
        System.out.println(One.CONSTANT.name() == One.CONSTANT.toString());
        System.out.println(One.CONSTANT.name() == "CONSTANT");
    }

    static void nameless() {
        System.out.print(new Nameless());
        System.out.println(new Nameless());
        System.out.println(String.valueOf(new Nameless()) == null);
        System.out.println(new StringBuilder().append(new Nameless()).toString());
        StringBuffer buffer = new StringBuffer("ab");
        System.out.println(buffer.append((Object) buffer).toString());
    }

    static void halves() {
        System.out.print('\ud83d');
        System.out.print('\ude00');
        System.out.println();
        System.out.print("\ud83d");
        System.out.println("\ude00");
        System.out.print(new char[] {'a', '\ud83d'});
        System.out.println(new char[] {'\ude00', 'b'});
    }

    static void secondOutput() {
        System.out.println(System.out == System.err);
        System.out.print("first ");
        System.err.print("second ");
        System.out.print("third ");
        System.err.println("fourth");
        System.err.println(5);
        System.err.print('6');
        System.err.print(7L);
        System.err.print(true);
        System.err.print((Object) null);
        System.err.print(new char[] {'8'});
        System.err.println();
        System.err.flush();
        System.out.println("last");
    }

    public static void main(String[] args) {
        identities();
        nameless();
        halves();
        secondOutput();
    }
}
