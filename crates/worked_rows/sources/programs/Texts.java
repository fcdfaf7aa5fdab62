public class Texts {
    static boolean palindrome(String text) {
        StringBuilder letters = new StringBuilder();
        for (int i = 0; i < text.length(); i++) {
            char c = text.charAt(i);
            if (c >= 'A' && c <= 'Z') {
                c += 32;
            }
            if (Character.isLetter(c)) {
                letters.append(c);
            }
        }
        char[] units = letters.toString().toCharArray();
        for (int i = 0, j = units.length - 1; i < j; i++, j--) {
            char kept = units[i];
            units[i] = units[j];
            units[j] = kept;
        }
        return new String(units).equals(letters.toString());
    }

    static String roman(int n) {
        int[] values = {1000, 900, 500, 400, 100, 90, 50, 40, 10, 9, 5, 4, 1};
        String[] names = {"M", "CM", "D", "CD", "C", "XC", "L", "XL", "X", "IX", "V", "IV", "I"};
        String result = "";
        for (int i = 0; i < values.length; i++) {
            while (n >= values[i]) {
                n -= values[i];
                result = result.concat(names[i]);
            }
        }
        return result;
    }

    static int order(String day) {
        switch (day) {
            case "monday":
                return 1;
            case "Aa":
                return 2;
            case "BB":
                return 3;
            default:
                return -1;
        }
    }

    public static void main(String[] args) {
        System.out.println(palindrome("A man, a plan, a canal: Panama") + " " + palindrome("No, this is none"));
        System.out.println(roman(1994) + ' ' + roman(3888));
        System.out.println(order("monday") + " " + order("Aa") + " " + order("BB") + " " + order("C#"));
        String text = "interned";
        String other = new StringBuilder("inter").append("ned").toString();
        System.out.println((text == other) + " " + text.equals(other) + " " + (text == other.intern()) + " " + text.hashCode());
        System.out.println(text.substring(5) + text.substring(0, 5) + text.indexOf('n') + text.indexOf('q'));
        System.out.println(text.compareTo("internal") + " " + "ab".compareTo("abc") + " " + text.startsWith("inter") + " " + "".isEmpty());
        StringBuffer buffer = new StringBuffer("0123456789");
        buffer.setCharAt(3, 'x');
        buffer.deleteCharAt(0);
        buffer.setLength(5);
        buffer.append(new char[] {'[', ']'}).append(true).append(-5).append(1L << 40).append((Object) null).append('\u20ac');
        System.out.println(buffer);
        System.out.println(buffer.length() + " " + (int) buffer.charAt(buffer.length() - 1));
        CharSequence sequence = buffer;
        Comparable<String> compared = text;
        System.out.println(sequence.charAt(2) + sequence.toString().length() + compared.compareTo("interned"));
        System.out.println(String.valueOf(new char[] {'o', 'k'}) + String.valueOf(args.length == 0 ? 'y' : 'n') + String.valueOf((Object) "z"));
        char[] units = "\ud83d\ude00 \u00e9".toCharArray();
        System.out.println(units);
        System.out.print(new String(units, 2, 2));
        System.out.println();
        try {
            System.out.println(text.charAt(8));
        } catch (StringIndexOutOfBoundsException e) {
            System.out.println("out of range");
        }
        try {
            text.concat(null);
        } catch (NullPointerException e) {
            System.out.println("null");
        }
    }
}
