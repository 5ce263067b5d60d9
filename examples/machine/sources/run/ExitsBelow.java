package run;

import api.Out;

/** System.exit by a thread that another waits for. */
public final class ExitsBelow extends Thread {
    public void run() {
        Out.say("below");
        System.exit(-2);
    }

    public static void main(String[] words) throws InterruptedException {
        Out.say("above");
        Thread below = new ExitsBelow();
        below.start();
        below.join();
        Out.say("never");
    }
}
