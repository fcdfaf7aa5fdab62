/** Long, and a Number of a program's own. */
public class Longs {
    static class Pair extends Number {
        final int low;
        final int high;

        Pair(int low, int high) {
            this.low = low;
            this.high = high;
        }

        public int intValue() {
            return low;
        }

        public long longValue() {
            return ((long) high << 32) + low;
        }
    }

    static void parse(String text) {
        try {
            System.out.println(Long.parseLong(text));
        } catch (NumberFormatException e) {
            System.out.println("no long");
        }
    }

    static void parsing() {
        parse("0");
        parse("-0");
        parse("2147483648");
        parse("-70");
        parse("00000000000000000000000000000012");
        parse("9223372036854775807");
        parse("9223372036854775808");
        parse("-9223372036854775808");
        parse("-9223372036854775809");
        parse("99999999999999999999999999999999");
        parse("18446744073709551616");
        parse("18446744073709551617");
        parse("");
        parse("-");
        parse("--1");
        parse("1L");
        parse(" 1");
        parse(null);
    }

    static boolean isOneObject(long value) {
        return Long.valueOf(value) == Long.valueOf(value);
    }

    static void boxes() {
        System.out.println(isOneObject(0));
        System.out.println(isOneObject(127));
        System.out.println(isOneObject(-128));
        System.out.println(isOneObject(128));
        System.out.println(isOneObject(-129));
        System.out.println(isOneObject(4294967296L));
        System.out.println(isOneObject(9223372036854775807L));
        System.out.println((Object) Long.valueOf(1) == (Object) Integer.valueOf(1));
        System.out.println(Long.toString(0));
        System.out.println(Long.toString(9223372036854775807L));
        System.out.println(Long.toString(-9223372036854775808L));
        System.out.println(Long.toString(5) == Long.toString(5));
    }

    static void values(Long box) {
        System.out.println(box.intValue());
        System.out.println(box.longValue());
        System.out.println(box.hashCode());
        System.out.println(box.toString());
        System.out.println((Object) box);
    }

    static void number(Number number) {
        System.out.println(number.intValue());
        System.out.println(number.longValue());
    }

    static void compare(Comparable<Object> one, Object other) {
        try {
            System.out.println(one.compareTo(other));
        } catch (ClassCastException e) {
            System.out.println("another class");
        } catch (NullPointerException e) {
            System.out.println("no object");
        }
    }

    static void compareBoxes(Object one, Object other) {
        compare((Comparable<Object>) one, other);
    }

    static void equality() {
        Long box = 1000L;
        System.out.println(box.equals(1000L));
        System.out.println(box.equals(1001L));
        System.out.println(box.equals(4294968296L));
        System.out.println(box.equals(1000));
        System.out.println(box.equals(null));
        compareBoxes(1L, 2L);
        compareBoxes(4294967296L, 1L);
        compareBoxes(1000L, 1000L);
        compareBoxes(-9223372036854775808L, 9223372036854775807L);
        compareBoxes(9223372036854775807L, -9223372036854775808L);
        compareBoxes(1L, 1);
        compareBoxes(1L, null);
    }

    public static void main(String[] args) {
        parsing();
        boxes();
        values(7L);
        values(-1L);
        values(4294967297L);
        values(9223372036854775807L);
        values(-9223372036854775808L);
        number(4294967297L);
        number(new Pair(7, 1));
        number(new Pair(-1, 0));
        equality();
    }
}
