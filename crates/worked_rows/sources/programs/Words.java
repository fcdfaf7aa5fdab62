public class Words {
    static int count;
    static String longest = "";

    static int letter(int c) {
        return c == -1 || Character.isWhitespace((char) c) ? -1 : c;
    }

    static void take(StringBuilder word) {
        if (word.length() == 0) {
            return;
        }
        count++;
        String text = word.toString();
        if (text.length() > longest.length() || text.length() == longest.length() && text.compareTo(longest) < 0) {
            longest = text;
        }
        word.setLength(0);
    }

    public static void main(String[] args) throws java.io.IOException {
        StringBuilder word = new StringBuilder();
        int lines = 0;
        int digits = 0;
        int c;
        do {
            c = System.in.read();
            if (c == '\n') {
                lines++;
            }
            if (c != -1 && Character.isDigit((char) c)) {
                digits++;
            }
            if (letter(c) == -1) {
                take(word);
            } else {
                word.append((char) c);
            }
        } while (c != -1);
        System.out.println(lines + " lines, " + count + " words, " + digits + " digits");
        System.out.println("longest: " + longest + " (" + longest.length() + ')');
        System.in.close();
    }
}
