package api;

/** Gives values of each kind. */
public final class In {
    private static final int[] NUMBERS = {7, -1, 0, 2147483647, -2147483648};
    private static int next;

    private In() {}

    public static int number() {
        Trace.call("api/In number ()I");
        return Trace.gives("api/In number ()I", NUMBERS[next++ % NUMBERS.length]);
    }

    public static boolean yes() {
        Trace.call("api/In yes ()Z");
        return Trace.gives("api/In yes ()Z", 1) == 1;
    }

    public static byte least() {
        Trace.call("api/In least ()B");
        return (byte) Trace.gives("api/In least ()B", -128);
    }

    public static short brief() {
        Trace.call("api/In brief ()S");
        return (short) Trace.gives("api/In brief ()S", -32768);
    }

    public static char letter() {
        Trace.call("api/In letter ()C");
        return (char) Trace.gives("api/In letter ()C", 65535);
    }

    public static String text() {
        Trace.call("api/In text ()Ljava/lang/String;");
        return Trace.text("api/In text ()Ljava/lang/String;", "h\u00e4\u20ac\ud83d\ude00\u0000.");
    }

    public static Object word() {
        Trace.call("api/In word ()Ljava/lang/Object;");
        return Trace.text("api/In word ()Ljava/lang/Object;", "");
    }

    public static Box none() {
        Trace.call("api/In none ()Lapi/Box;");
        return Trace.gives("api/In none ()Lapi/Box;", "null", null);
    }

    public static Box make() {
        Trace.call("api/In make ()Lapi/Box;");
        return Trace.gives("api/In make ()Lapi/Box;", "fresh api/Box", new Box(0));
    }

    public static Box lid() {
        Trace.call("api/In lid ()Lapi/Box;");
        return Trace.gives("api/In lid ()Lapi/Box;", "fresh api/Lid", new Lid());
    }

    public static Kept kept() {
        Trace.call("api/In kept ()Lapi/Kept;");
        return Trace.gives("api/In kept ()Lapi/Kept;", "fresh api/Lid", new Lid());
    }

    public static Object same(Object one) {
        Trace.call("api/In same (Ljava/lang/Object;)Ljava/lang/Object;", one);
        return Trace.gives("api/In same (Ljava/lang/Object;)Ljava/lang/Object;", "arg 0", one);
    }

    public static Runnable second(int n, Runnable one) {
        Trace.call("api/In second (ILjava/lang/Runnable;)Ljava/lang/Runnable;", n, one);
        return Trace.gives("api/In second (ILjava/lang/Runnable;)Ljava/lang/Runnable;", "arg 1", one);
    }

    /** Throws an exception of one of four classes. */
    public static void fail(int which) throws Broken {
        Trace.call("api/In fail (I)V", which);
        switch (which) {
            case 0:
                throw Trace.thrown("api/In fail (I)V", new Broken());
            case 1:
                throw Trace.thrown("api/In fail (I)V", new Worse());
            case 2:
                throw Trace.thrown("api/In fail (I)V", new RuntimeException());
            default:
                throw Trace.thrown("api/In fail (I)V", new ArithmeticException());
        }
    }
}
