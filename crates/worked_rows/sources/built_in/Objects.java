/** Object: equality, numbers, classes, copies. */
public class Objects {
    static class Point implements Cloneable {
        int x;
        long y;
        int[] parts;
        Point next;

        Point copy() {
            try {
                return (Point) clone();
            } catch (CloneNotSupportedException e) {
                System.out.println("no copy");
                return null;
            }
        }
    }

    static class Colored extends Point {
        char tint = 'r';
        boolean dark = true;
        byte shade = -1;
        short depth = -2;
    }

    static class Single {
        Object copy() {
            try {
                return clone();
            } catch (CloneNotSupportedException e) {
                System.out.println("no copy");
                return null;
            }
        }
    }

    static class Alike {
        public int hashCode() {
            return 7;
        }

        public boolean equals(Object other) {
            return other instanceof Alike;
        }

        public String toString() {
            return "alike";
        }
    }

    static void equality() {
        Object one = new Object();
        Object other = new Object();
        System.out.println(one.equals(one));
        System.out.println(one.equals(other));
        System.out.println(one.equals(null));
        System.out.println(one.equals("one"));
        System.out.println(one.hashCode() == one.hashCode());
        System.out.println(one.hashCode() == System.identityHashCode(one));
        System.out.println(new int[0].equals(new int[0]));
        int[] array = {1};
        System.out.println(array.equals(array));
        System.out.println(array.hashCode() == System.identityHashCode(array));
        Object alike = new Alike();
        System.out.println(alike.equals(new Alike()));
        System.out.println(alike.equals(one));
        System.out.println(alike.hashCode());
        System.out.println(alike.toString());
        System.out.println(System.identityHashCode(alike) == System.identityHashCode(alike));
        System.out.println("abc".hashCode() == System.identityHashCode("abc"));
    }

    static void copies() {
        Colored one = new Colored();
        one.x = 3;
        one.y = -4294967296L;
        one.parts = new int[] {1, 2};
        one.next = one;
        Colored copy = (Colored) one.copy();
        System.out.println(copy == one);
        System.out.println(copy.getClass() == one.getClass());
        System.out.println(copy.x);
        System.out.println(copy.y);
        System.out.println(copy.parts == one.parts);
        System.out.println(copy.next == one);
        System.out.println(copy.tint);
        System.out.println(copy.dark);
        System.out.println(copy.shade);
        System.out.println(copy.depth);
        copy.x = 4;
        copy.parts[0] = 9;
        System.out.println(one.x);
        System.out.println(one.parts[0]);
        System.out.println(new Single().copy());
        System.out.println(new Point().copy().parts);
    }

    static void narrowArrays() {
        byte[] bytes = {-1, 127};
        byte[] otherBytes = bytes.clone();
        bytes[0] = 5;
        System.out.println(otherBytes[0]);
        boolean[] booleans = {true};
        System.out.println(booleans.clone()[0]);
        char[] chars = {'\uffff'};
        System.out.println((int) chars.clone()[0]);
        short[] shorts = {-32768};
        System.out.println(shorts.clone()[0]);
    }

    static void arrays() {
        int[] ints = {1, 2, 3};
        int[] copy = ints.clone();
        ints[0] = 7;
        System.out.println(copy == ints);
        System.out.println(copy.length);
        System.out.println(copy[0]);
        System.out.println(copy[2]);
        System.out.println(new int[0].clone().length);
        long[] longs = {-9223372036854775808L, 1};
        System.out.println(longs.clone()[0]);
        narrowArrays();
        int[][] grid = {{1}, {2, 3}, null};
        int[][] other = grid.clone();
        System.out.println(other[1] == grid[1]);
        System.out.println(other[2] == null);
        System.out.println(other.getClass() == grid.getClass());
        String[] texts = {"a", null};
        Object[] objects = ((Object[]) texts).clone();
        System.out.println(objects[0]);
        System.out.println(objects instanceof String[]);
        try {
            objects[1] = 1;
        } catch (ArrayStoreException e) {
            System.out.println("no Integer there");
        }
        int[] none = null;
        try {
            none.clone();
        } catch (NullPointerException e) {
            System.out.println("no array");
        }
    }

    static void classes() {
        Object one = new Object();
        System.out.println(one.getClass() == new Object().getClass());
        System.out.println(one.getClass() == "one".getClass());
        System.out.println(one.getClass() == Object.class);
        System.out.println((Object) new Colored().getClass() == Point.class);
        System.out.println(new int[1].getClass() == new int[2].getClass());
        System.out.println(new int[1].getClass() == int[].class);
        System.out.println((Object) new int[1].getClass() == new long[1].getClass());
        System.out.println(one.getClass().getClass() == Class.class);
        System.out.println(one.getClass().equals(Object.class));
        Object none = null;
        try {
            none.getClass();
        } catch (NullPointerException e) {
            System.out.println("no object");
        }
    }

    public static void main(String[] args) {
        equality();
        copies();
        arrays();
        classes();
    }
}
