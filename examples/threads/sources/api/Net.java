package api;

/**
 * What the threads call. Each call is kept as it begins and as it ends; a read, and each 50th call of the others, lasts a
 * while, so that other threads come upon it.
 */
public final class Net {
    private static final int OFTEN = 50;
    private static final long WHILE = 1;

    private Net() {}

    public static void send(int n) {
        begun("api/Net send (I)V " + n);
        last(n);
        ended("return", "api/Net send (I)V");
    }

    public static int read() {
        begun("api/Net read ()I");
        last(0);
        ended("return", "api/Net read ()I 7");
        return 7;
    }

    /** Gives the number back; each tenth one is refused. */
    public static int ask(int n) throws Broken {
        begun("api/Net ask (I)I " + n);
        last(n);
        if (n % 10 == 9) {
            ended("except", "api/Net ask (I)I");
            throw new Broken();
        }
        ended("return", "api/Net ask (I)I " + n);
        return n;
    }

    private static void begun(String call) {
        UnderWay.begin();
        Events.add("call", call);
    }

    private static void ended(String word, String rest) {
        Events.add(word, rest);
        UnderWay.end();
    }

    private static void last(int n) {
        if (n % OFTEN == 0) {
            Events.pause(WHILE);
        }
    }
}
