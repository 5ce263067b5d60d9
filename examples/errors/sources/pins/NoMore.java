package pins;

/** There is no number left. */
final class NoMore extends Exception {
    NoMore(String message) {
        super(message);
    }
}
