/** A closed input goes on. */
public class OwnInput {
    public static void main(String[] args) throws java.io.IOException {
        System.out.println(System.in.read());
        System.in.close();
        System.out.println(System.in.read());
        System.out.println(System.in.read());
        System.out.println(System.in.read());
        System.in.close();
        System.in.close();
        System.out.println(System.in.read());
    }
}
