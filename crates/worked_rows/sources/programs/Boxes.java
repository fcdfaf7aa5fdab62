public class Boxes {
    static Object[] all() {
        return new Object[] {1, 127, 128, 1L, -129L, 'x', '\u00e9', true, "text", null};
    }

    static String kind(Object o) {
        if (o instanceof Integer) {
            return "int " + ((Integer) o).intValue();
        }
        if (o instanceof Long) {
            return "long " + ((Long) o).longValue() + ' ' + ((Number) o).intValue();
        }
        if (o instanceof Character) {
            return "char " + (int) ((Character) o).charValue();
        }
        if (o instanceof Boolean) {
            return "boolean " + ((Boolean) o).booleanValue();
        }
        return "other " + o;
    }

    static int number(String text) {
        try {
            return Integer.parseInt(text);
        } catch (NumberFormatException e) {
            return -1;
        }
    }

    public static void main(String[] args) {
        Object[] first = all();
        Object[] second = all();
        for (int i = 0; i < first.length; i++) {
            System.out.print(kind(first[i]));
            System.out.print(first[i] == second[i] ? " same" : " new");
            System.out.println(first[i] == null || first[i].equals(second[i]) ? " equal" : " unequal");
        }
        int sum = 0;
        for (Object o : first) {
            if (o != null) {
                sum += o.hashCode();
            }
        }
        System.out.println(sum);
        Integer small = 5;
        Long same = 5L;
        System.out.println(small.equals(same));
        Comparable<Integer> ordered = small;
        Comparable<Long> placed = same;
        System.out.println(ordered.compareTo(6) + " " + ordered.compareTo(5) + " " + placed.compareTo(-7L));
        System.out.println(number("12") + number("-12") + number("1x") + number("") + number("2147483648"));
        System.out.println(Long.parseLong("-9223372036854775808"));
        System.out.println(Long.toString(1L << 62) + Integer.toString(-7) + Integer.toHexString(-2) + Integer.toHexString(255));
        System.out.println(Boolean.parseBoolean("TrUe") + " " + Boolean.parseBoolean("yes"));
        System.out.println(Math.abs(-3) + Math.max(2, 9) * Math.min(-4L, 7L) + Math.abs(Long.MIN_VALUE));
        System.out.println(Long.valueOf(1L << 33 | 6).hashCode() + Boolean.valueOf(false).hashCode());
        System.out.println(Character.isLetter('q') + " " + Character.isDigit('q') + " " + Character.toString('q'));
    }
}
