package api;

/** Shows texts to whoever runs the plug-in. */
public final class Screen {
    private Screen() {}

    public static void show(String text) {
        System.out.println("show " + text);
    }
}
