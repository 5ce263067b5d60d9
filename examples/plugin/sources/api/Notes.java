package api;

/** The notes of whoever runs the plug-in. The second was deleted. */
public final class Notes {
    private static final String[] ALL = {"buy bread and milk", null, "the key is under the mat"};

    private Notes() {}

    public static int count() {
        return ALL.length;
    }

    public static String read(int number) throws Missing {
        System.out.println("read " + number);
        if (ALL[number] == null) {
            throw new Missing();
        }
        return ALL[number];
    }
}
