/** Integer. */
public class Integers {
    static void parse(String text) {
        try {
            System.out.println(Integer.parseInt(text));
        } catch (NumberFormatException e) {
            System.out.println("no int");
        }
    }

    static void parsing() {
        parse("0");
        parse("-0");
        parse("7");
        parse("-70");
        parse("00000000000000000012");
        parse("2147483647");
        parse("2147483648");
        parse("-2147483648");
        parse("-2147483649");
        parse("99999999999999999999999");
        parse("-99999999999999999999999");
        parse("4294967296");
        parse("");
        parse("-");
        parse("--1");
        parse("+-1");
        parse("1-");
        parse("1 ");
        parse(" 1");
        parse("0x10");
        parse("1a");
        parse("1L");
        parse("\0");
        parse(":");
        parse("/");
        parse(null);
    }

    static void texts() {
        System.out.println(Integer.toString(0));
        System.out.println(Integer.toString(-1));
        System.out.println(Integer.toString(2147483647));
        System.out.println(Integer.toString(-2147483648));
        System.out.println(Integer.toHexString(0));
        System.out.println(Integer.toHexString(255));
        System.out.println(Integer.toHexString(0x0a0b0c0d));
        System.out.println(Integer.toHexString(-1));
        System.out.println(Integer.toHexString(2147483647));
        System.out.println(Integer.toHexString(-2147483648));
        System.out.println(Integer.toString(5) == Integer.toString(5));
    }

    static boolean isOneObject(int value) {
        return Integer.valueOf(value) == Integer.valueOf(value);
    }

    static void boxes() {
        System.out.println(isOneObject(0));
        System.out.println(isOneObject(127));
        System.out.println(isOneObject(-128));
        System.out.println(isOneObject(128));
        System.out.println(isOneObject(-129));
        System.out.println(isOneObject(2147483647));
        System.out.println(isOneObject(-2147483648));
        System.out.println(isOneObject(256));
        int same = 0;
        for (int value = -300; value < 300; value++) {
            Object one = value;
            Object other = value;
            if (one == other) {
                same++;
            }
        }
        System.out.println(same);
    }

    static void values(Integer box) {
        System.out.println(box.intValue());
        System.out.println(box.longValue());
        System.out.println(box.hashCode());
        System.out.println(box.toString());
        System.out.println((Object) box);
        Number number = box;
        System.out.println(number.intValue());
        System.out.println(number.longValue());
    }

    static void compare(Comparable<Object> one, Object other) {
        try {
            System.out.println(one.compareTo(other));
        } catch (ClassCastException e) {
            System.out.println("another class");
        } catch (NullPointerException e) {
            System.out.println("no object");
        }
    }

    static void compareBoxes(Object one, Object other) {
        compare((Comparable<Object>) one, other);
    }

    static void equality() {
        Integer box = 1000;
        System.out.println(box.equals(1000));
        System.out.println(box.equals(1001));
        System.out.println(box.equals(1000L));
        System.out.println(box.equals("1000"));
        System.out.println(box.equals(null));
        System.out.println(box.equals(box));
        compareBoxes(1, 2);
        compareBoxes(2, 1);
        compareBoxes(1000, 1000);
        compareBoxes(-2147483648, 2147483647);
        compareBoxes(2147483647, -2147483648);
        compareBoxes(1, 1L);
        compareBoxes(1, "1");
        compareBoxes(1, null);
    }

    static int unbox(Integer box) {
        return box + 1;
    }

    public static void main(String[] args) {
        parsing();
        texts();
        boxes();
        values(7);
        values(-2147483648);
        equality();
        System.out.println(unbox(2147483647));
        try {
            System.out.println(unbox(null));
        } catch (NullPointerException e) {
            System.out.println("no box");
        }
    }
}
