public class Copies {
    static void show(int[] numbers) {
        StringBuilder text = new StringBuilder();
        for (int n : numbers) {
            text.append(n).append(' ');
        }
        System.out.println(text);
    }

    static void copied(Object from, int at, Object to, int place, int count) {
        try {
            System.arraycopy(from, at, to, place, count);
            System.out.println("copied");
        } catch (ArrayStoreException e) {
            System.out.println("stored");
        } catch (IndexOutOfBoundsException e) {
            System.out.println("outside");
        } catch (NullPointerException e) {
            System.out.println("null");
        }
    }

    public static void main(String[] args) {
        int[] numbers = {0, 1, 2, 3, 4, 5, 6, 7};
        System.arraycopy(numbers, 0, numbers, 2, 5);
        show(numbers);
        System.arraycopy(numbers, 3, numbers, 0, 5);
        show(numbers);
        int[] kept = numbers.clone();
        kept[0] = 100;
        show(kept);
        Object[] objects = {"a", 1, "b", null};
        String[] texts = new String[4];
        copied(objects, 0, texts, 1, 3);
        System.out.println(texts[0] + texts[1] + texts[2] + texts[3]);
        copied(objects, 2, texts, 2, 2);
        System.out.println(texts[0] + texts[1] + texts[2] + texts[3]);
        copied(numbers, 0, new long[8], 0, 1);
        copied(numbers, 0, new int[2][3], 0, 1);
        copied(new int[2][3], 0, objects, 0, 2);
        copied(numbers, -1, numbers, 0, 1);
        copied(numbers, 0, numbers, 8, 0);
        copied(numbers, 0, numbers, 8, 1);
        copied(numbers, 1, numbers, 0, 2147483647);
        copied("text", 0, numbers, 0, 0);
        copied(null, 0, numbers, 0, 0);
        System.out.println(System.identityHashCode(null) + " " + (System.identityHashCode(numbers) == System.identityHashCode(numbers)));
        assert numbers.length == 0;
        char[][] grid = new char[2][];
        grid[0] = "xy".toCharArray();
        grid[1] = grid[0].clone();
        grid[1][0] = 'z';
        System.out.println(grid[0]);
        System.out.println(String.valueOf(grid[1]) + grid[0].equals(grid[0].clone()));
    }
}
