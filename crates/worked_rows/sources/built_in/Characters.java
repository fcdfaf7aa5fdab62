/** Character, over ASCII where a test is asked. */
public class Characters {
    static void tests() {
        for (char unit = 0; unit < 128; unit++) {
            boolean digit = Character.isDigit(unit);
            boolean letter = Character.isLetter(unit);
            boolean space = Character.isWhitespace(unit);
            if (digit || letter || space) {
                System.out.print((int) unit);
                System.out.print(digit ? " digit" : "");
                System.out.print(letter ? " letter" : "");
                System.out.print(space ? " space" : "");
                System.out.println();
            }
        }
    }

    static boolean isOneObject(char unit) {
        return Character.valueOf(unit) == Character.valueOf(unit);
    }

    static void boxes() {
        System.out.println(isOneObject('\0'));
        System.out.println(isOneObject('a'));
        System.out.println(isOneObject('\u007f'));
        System.out.println(isOneObject('\u0080'));
        System.out.println(isOneObject('\uffff'));
        System.out.println(Character.toString('x'));
        System.out.println(Character.toString('\u20ac'));
        System.out.println((int) Character.toString('\uffff').charAt(0));
        System.out.println(Character.toString('\0').length());
    }

    static void values(Character box) {
        System.out.println((int) box.charValue());
        System.out.println(box.hashCode());
        System.out.println(box.toString().length());
        System.out.println((int) box.toString().charAt(0));
    }

    static void equality() {
        Character box = '\u1000';
        System.out.println(box.equals('\u1000'));
        System.out.println(box.equals('\u1001'));
        System.out.println(box.equals(4096));
        System.out.println(box.equals("\u1000"));
        System.out.println(box.equals(null));
        System.out.println((Object) box);
    }

    public static void main(String[] args) {
        tests();
        boxes();
        values('a');
        values('\0');
        values('\uffff');
        values('\ud83d');
        equality();
    }
}
