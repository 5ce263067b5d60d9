package pins;

import api.Card;
import api.Wrong;

/** One attempt. */
final class Attempt {
    private Attempt() {}

    /** Whether the card opens. */
    static boolean opens(int number) {
        try {
            Card.open(number);
            return true;
        } catch (Wrong e) {
            return false;
        }
    }
}
