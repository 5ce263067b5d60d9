package api;

/** Sends texts to the makers of the plug-in. */
public final class Net {
    private Net() {}

    public static void send(String text) {
        System.out.println("send " + text);
    }
}
