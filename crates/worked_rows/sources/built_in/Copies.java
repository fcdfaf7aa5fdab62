/** System.arraycopy and identityHashCode. */
public class Copies {
    static void copy(Object from, int at, Object to, int place, int count) {
        try {
            System.arraycopy(from, at, to, place, count);
        } catch (NullPointerException e) {
            System.out.println("no array");
        } catch (ArrayStoreException e) {
            System.out.println("does not fit");
        } catch (ArrayIndexOutOfBoundsException e) {
            System.out.println("outside");
        }
    }

    static void show(int[] array) {
        for (int i = 0; i < array.length; i++) {
            System.out.print(array[i]);
            System.out.print(' ');
        }
        System.out.println();
    }

    static void show(Object[] array) {
        for (int i = 0; i < array.length; i++) {
            System.out.print(array[i]);
            System.out.print(' ');
        }
        System.out.println();
    }

    static int[] five() {
        return new int[] {1, 2, 3, 4, 5};
    }

    static void within() {
        int[] array = five();
        copy(array, 0, array, 1, 4);
        show(array);
        array = five();
        copy(array, 1, array, 0, 4);
        show(array);
        array = five();
        copy(array, 0, array, 0, 5);
        show(array);
        array = five();
        copy(array, 0, array, 3, 2);
        show(array);
        Object[] objects = {"a", "b", "c", "d"};
        copy(objects, 0, objects, 1, 3);
        show(objects);
        copy(objects, 2, objects, 0, 2);
        show(objects);
    }

    static void places() {
        int[] to = new int[3];
        copy(five(), 1, to, 0, 3);
        show(to);
        copy(five(), 5, to, 3, 0);
        copy(five(), 0, to, 0, 0);
        show(to);
        copy(five(), -1, to, 0, 1);
        copy(five(), 0, to, -1, 1);
        copy(five(), 0, to, 0, -1);
        copy(five(), 0, to, 0, 4);
        copy(five(), 3, to, 0, 3);
        copy(five(), 0, to, 2, 2);
        copy(five(), 6, to, 0, 0);
        copy(five(), 0, to, 4, 0);
        copy(five(), 2147483647, to, 0, 1);
        copy(five(), 1, to, 0, 2147483647);
        copy(five(), 0, to, 2147483647, 2147483647);
        copy(five(), -2147483648, to, 0, -2147483648);
        show(to);
        copy(new int[0], 0, new int[0], 0, 0);
    }

    static void sorts() {
        copy(null, 0, five(), 0, 1);
        copy(five(), 0, null, 0, 1);
        copy(null, -1, null, -1, -1);
        copy("text", 0, five(), 0, 1);
        copy(five(), 0, "text", 0, 1);
        copy(five(), 0, new long[5], 0, 1);
        copy(five(), 0, new long[5], -1, 0);
        copy(new int[0], 0, new Object[0], 0, 0);
        copy(new Object[1], 0, five(), 0, 1);
        copy(new byte[1], 0, new boolean[1], 0, 1);
        copy(new char[1], 0, new short[1], 0, 1);
        copy(new int[1][1], 0, five(), 0, 1);
    }

    static void references() {
        String[] texts = {"1", "2", "3", "4"};
        Object[] mixed = {"a", null, 7, "d"};
        copy(mixed, 0, texts, 0, 4);
        show(texts);
        copy(mixed, 2, texts, 0, 1);
        show(texts);
        copy(mixed, 3, texts, 3, 1);
        copy(texts, 0, mixed, 1, 3);
        show(mixed);
        copy(mixed, 0, texts, 3, 2);
        show(texts);
        int[][] grid = {{1}, {2}};
        Object[] rows = new Object[2];
        copy(grid, 0, rows, 0, 2);
        System.out.println(rows[1] == grid[1]);
        long[][] others = new long[2][];
        copy(grid, 0, others, 0, 2);
        System.out.println(others[0] == null);
        copy(new int[2][], 0, others, 0, 2);
        copy(new Object[] {null, null}, 0, texts, 0, 2);
        show(texts);
    }

    static void narrow() {
        byte[] bytes = {-1, 2};
        byte[] otherBytes = new byte[3];
        copy(bytes, 0, otherBytes, 1, 2);
        System.out.println(otherBytes[1]);
        boolean[] booleans = {true, false};
        copy(booleans, 0, booleans, 1, 1);
        System.out.println(booleans[1]);
        char[] chars = {'a', '\uffff'};
        copy(chars, 1, chars, 0, 1);
        System.out.println((int) chars[0]);
        short[] shorts = {-32768, 0};
        copy(shorts, 0, shorts, 1, 1);
        System.out.println(shorts[1]);
        long[] longs = {-9223372036854775808L, 0};
        copy(longs, 0, longs, 1, 1);
        System.out.println(longs[1]);
    }

    public static void main(String[] args) {
        within();
        places();
        sorts();
        references();
        narrow();
        System.out.println(System.identityHashCode(null));
        System.out.println(System.identityHashCode(args) == args.hashCode());
        System.out.println(System.identityHashCode(args) == 0);
    }
}
