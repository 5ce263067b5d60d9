package api;

/** A card that its number opens, however often others were tried. */
public final class Card {
    private Card() {}

    public static void open(int number) throws Wrong {
        System.out.println("open " + number);
        if (number != 4711) {
            throw new Wrong();
        }
    }
}
