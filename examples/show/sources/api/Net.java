package api;

/** What a client sees of the library of examples/listings/net.listing. */
public class Net {
    public Net() {
    }

    public static void send() {
    }

    public static int read() {
        return 0;
    }

    public void push(int value) {
    }
}
