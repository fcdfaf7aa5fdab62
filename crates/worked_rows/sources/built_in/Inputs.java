/** InputStream: the bytes of the input up to its end, and behind it. */
public class Inputs {
    public static void main(String[] args) throws java.io.IOException {
        int sum = 0;
        int count = 0;
        for (int unit = System.in.read(); unit != -1; unit = System.in.read()) {
            System.out.print(unit);
            System.out.print(' ');
            sum += unit;
            count++;
        }
        System.out.println();
        System.out.println(count);
        System.out.println(sum);
        System.out.println(System.in.read());
        System.out.println(System.in.read());
        System.in.close();
        System.out.println("closed");
    }
}
