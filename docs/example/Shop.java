/** A small shop: what the parcels of three weeks cost. */
public class Shop {
    static int total(Price[] prices, int[] pieces) {
        int sum = 0;
        for (int i = 0; i < prices.length; i++) {
            sum += prices[i].of(pieces[i]);
        }
        return sum;
    }

    public static void main(String[] args) {
        Price pens = new Flat(120);
        Price books = new Scaled(new Flat(900), 10);
        Price[] prices = {pens, books};
        for (int week = 1; week <= 3; week++) {
            int[] pieces = {5, 4 * week};
            System.out.println("week " + week + ": " + total(prices, pieces));
        }
    }
}

interface Price {
    int of(int pieces);
}

class Flat implements Price {
    private final int each;

    Flat(int each) {
        this.each = each;
    }

    public int of(int pieces) {
        return each * pieces;
    }
}

/** A tenth less from so many pieces on. */
class Scaled implements Price {
    private final Price full;
    private final int from;

    Scaled(Price full, int from) {
        this.full = full;
        this.from = from;
    }

    public int of(int pieces) {
        int price = full.of(pieces);
        return pieces < from ? price : price - price / 10;
    }
}
