package run;

import api.Out;

/** An exception that no frame takes. */
public final class Uncaught {
    private static synchronized void down(int n) {
        try {
            if (n == 0) {
                throw new IllegalArgumentException();
            }
            down(n - 1);
        } catch (ArithmeticException e) {
            Out.say("never");
        } finally {
            Out.put(n);
        }
    }

    public static void main(String[] words) {
        down(3);
        Out.say("never");
    }
}
