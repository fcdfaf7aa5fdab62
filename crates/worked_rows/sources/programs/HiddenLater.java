class Shown {
    int number = 1;
}

class Hiding extends Shown {
    int number = 2;
}

public class HiddenLater {
    static int read(Shown shown) {
        return shown.number;
    }

    static Shown later() {
        return new Hiding();
    }

    public static void main(String[] args) {
        System.out.println(read(new Shown()));
        Shown hiding = later();
        System.out.println(read(hiding));
        System.out.println(((Hiding) hiding).number);
    }
}
