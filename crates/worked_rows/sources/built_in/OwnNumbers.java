/** What is ASCII only, and numbers with a plus. */
public class OwnNumbers {
    static void parseInt(String text) {
        try {
            System.out.println(Integer.parseInt(text));
        } catch (NumberFormatException e) {
            System.out.println("no int");
        }
    }

    static void parseLong(String text) {
        try {
            System.out.println(Long.parseLong(text));
        } catch (NumberFormatException e) {
            System.out.println("no long");
        }
    }

    static void tests(char unit) {
        System.out.print(Character.isDigit(unit));
        System.out.print(' ');
        System.out.print(Character.isLetter(unit));
        System.out.print(' ');
        System.out.println(Character.isWhitespace(unit));
    }

    public static void main(String[] args) {
        parseInt("+1");
        parseInt("+0");
        parseInt("+");
        parseInt("\u0661");
        parseInt("-\uff11");
        parseLong("+1");
        parseLong("+9223372036854775807");
        parseLong("\u0661");
        tests('\u0661');
        tests('\uff11');
        tests('\u00e9');
        tests('\u00aa');
        tests('\u0391');
        tests('\u4e00');
        tests('\u2003');
        tests('\u3000');
        tests('\u0085');
        tests('\u00a0');
        tests('\uffff');
    }
}
