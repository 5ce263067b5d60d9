package api;

/** A network, of which only the calls matter. */
public final class Net {
    private Net() {}

    public static void send() {
        System.out.println("send");
    }
}
