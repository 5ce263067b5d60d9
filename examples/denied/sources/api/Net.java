package api;

/** What a woven class must not reach. */
public class Net {
    public static void send() {
        System.out.println("sent");
    }
}
