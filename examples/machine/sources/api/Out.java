package api;

/** Takes values, and shows them by its calls. */
public final class Out {
    private Out() {}

    public static void put(int n) {
        Trace.call("api/Out put (I)V", n);
        Trace.done("api/Out put (I)V");
    }

    public static void five(int a, int b, int c, int d, int e) {
        Trace.call("api/Out five (IIIII)V", a, b, c, d, e);
        Trace.done("api/Out five (IIIII)V");
    }

    public static void flag(boolean b) {
        Trace.call("api/Out flag (Z)V", b ? 1 : 0);
        Trace.done("api/Out flag (Z)V");
    }

    public static void narrow(byte b, short s, char c) {
        Trace.call("api/Out narrow (BSC)V", (int) b, (int) s, (int) c);
        Trace.done("api/Out narrow (BSC)V");
    }

    public static void say(String text) {
        Trace.call("api/Out say (Ljava/lang/String;)V", text);
        Trace.done("api/Out say (Ljava/lang/String;)V");
    }

    public static void show(Object object) {
        Trace.call("api/Out show (Ljava/lang/Object;)V", object);
        Trace.done("api/Out show (Ljava/lang/Object;)V");
    }
}
