/** Enum: constants with and without a body, another enum, and a switch. */
public class Enums {
    enum Coin {
        ONE(1),
        TWO(2),
        FIVE(5) {
            int twice() {
                return 11;
            }
        },
        TEN(10) {
            public String toString() {
                return "ten";
            }
        };

        final int worth;

        Coin(int worth) {
            this.worth = worth;
        }

        int twice() {
            return 2 * worth;
        }
    }

    enum Tint {
        RED,
        GREEN
    }

    enum Empty {}

    static void show(Enum<?> constant) {
        System.out.print(constant.name());
        System.out.print(' ');
        System.out.print(constant.ordinal());
        System.out.print(' ');
        System.out.print(constant.toString());
        System.out.print(' ');
        System.out.println(constant);
        System.out.println(constant.hashCode() == System.identityHashCode(constant));
        System.out.println(constant.name() == constant.name());
        System.out.println(constant.getClass().getName());
    }

    static void compareConstants(Enum one, Enum other) {
        try {
            System.out.println(one.compareTo(other));
        } catch (ClassCastException e) {
            System.out.println("another enum");
        } catch (NullPointerException e) {
            System.out.println("no constant");
        }
    }

    static void compareAny(Comparable<Object> one, Object other) {
        try {
            System.out.println(one.compareTo(other));
        } catch (ClassCastException e) {
            System.out.println("another class");
        } catch (NullPointerException e) {
            System.out.println("no object");
        }
    }

    static void compare(Object one, Object other) {
        compareAny((Comparable<Object>) one, other);
    }

    static void order() {
        compareConstants(Coin.ONE, Coin.ONE);
        compareConstants(Coin.ONE, Coin.TWO);
        compareConstants(Coin.TWO, Coin.ONE);
        compareConstants(Coin.ONE, Coin.TEN);
        compareConstants(Coin.TEN, Coin.ONE);
        compareConstants(Coin.FIVE, Coin.TEN);
        compareConstants(Coin.ONE, Tint.RED);
        compareConstants(Tint.GREEN, Coin.FIVE);
        compareConstants(Coin.ONE, null);
        compare(Coin.TWO, Coin.FIVE);
        compare(Coin.FIVE, Coin.TWO);
        compare(Coin.FIVE, Tint.RED);
        compare(Coin.FIVE, "FIVE");
        compare(Coin.FIVE, 3);
        compare(Coin.FIVE, null);
    }

    static void equality() {
        System.out.println(Coin.ONE.equals(Coin.ONE));
        System.out.println(Coin.ONE.equals(Coin.TWO));
        System.out.println(Coin.ONE.equals(Tint.RED));
        System.out.println(Coin.ONE.equals(null));
        System.out.println(Coin.ONE.equals("ONE"));
    }

    static String named(Coin coin) {
        switch (coin) {
            case ONE:
                return "one";
            case FIVE:
                return "five";
            default:
                return "another";
        }
    }

    public static void main(String[] args) {
        Coin[] coins = Coin.values();
        System.out.println(coins.length);
        System.out.println(Empty.values().length);
        System.out.println(coins == Coin.values());
        coins[0] = null;
        System.out.println(Coin.values()[0]);
        for (Coin coin : Coin.values()) {
            show(coin);
            System.out.println(coin.twice());
            System.out.println(named(coin));
        }
        show(Tint.GREEN);
        order();
        equality();
    }
}
