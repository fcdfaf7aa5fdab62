public class OnePlace {
    static int attempt(int n) {
        try {
            return Absent.value();
        } catch (NoClassDefFoundError e) {
            return n;
        }
    }

    public static void main(String[] args) {
        System.out.println(attempt(1));
        System.out.println(attempt(2));
    }
}
