package run;

import api.Out;

/** System.exit, below a handler, a finally and a lock. */
public final class Exits {
    public static void main(String[] words) {
        try {
            synchronized (Exits.class) {
                down(3);
            }
            Out.say("never");
        } catch (Throwable e) {
            Out.say("never");
        } finally {
            Out.say("never");
        }
    }

    private static void down(int n) {
        if (n == 0) {
            System.exit(41);
        }
        Out.put(n);
        down(n - 1);
    }
}
