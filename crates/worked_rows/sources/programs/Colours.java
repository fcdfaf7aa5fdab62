public class Colours {
    enum Colour {
        RED, GREEN {
            int mixed(int by) {
                return by * 2;
            }
        }, BLUE;

        static final String FIRST = "first";

        int mixed(int by) {
            return by + ordinal();
        }
    }

    interface Shown {
        String shown();
    }

    static class Point implements Shown, Cloneable {
        int x;
        int[] more = {1, 2};

        Point(int x) {
            this.x = x;
        }

        public String shown() {
            return getClass().getName() + ' ' + x + more.length;
        }

        Point copy() throws CloneNotSupportedException {
            return (Point) clone();
        }

        public boolean equals(Object other) {
            return other instanceof Point && ((Point) other).x == x;
        }

        public int hashCode() {
            return x;
        }
    }

    static String letter(Colour colour) {
        switch (colour) {
            case RED:
                return "r";
            case BLUE:
                return "b";
            default:
                return "?";
        }
    }

    public static void main(String[] args) throws Exception {
        for (Colour colour : Colour.values()) {
            System.out.println(colour + " " + colour.ordinal() + ' ' + letter(colour) + ' ' + colour.mixed(20));
        }
        System.out.println(Colour.BLUE.compareTo(Colour.RED) + Colour.GREEN.compareTo(Colour.BLUE) + " " + Colour.RED.equals(Colour.BLUE));
        System.out.println(Colour.GREEN.getClass().getName() + ' ' + Colour.class.getName() + ' ' + int[][].class.getName());
        Point point = new Point(7);
        Point copy = point.copy();
        copy.x = 8;
        copy.more[0] = 9;
        System.out.println(point.shown() + ' ' + point.more[0] + ' ' + copy.shown() + ' ' + point.equals(copy) + ' ' + (point.more == copy.more));
        System.out.println(new Point[0].getClass().getName() + ' ' + (copy.getClass() == Point.class));
        try {
            Object o = Colour.RED;
            Comparable<Object> compared = (Comparable<Object>) (Comparable) "text";
            System.out.println(compared.compareTo(o));
        } catch (ClassCastException e) {
            System.out.println("cast");
        }
        try {
            throw new IllegalStateException("outer", new RuntimeException("inner"));
        } catch (IllegalStateException e) {
            System.out.println(e + ", " + e.getMessage() + ", " + e.getCause() + ", " + e.getCause().getMessage());
        }
    }
}
