package demo;

import api.Out;

/** A thread that is started twice. */
public final class SecondStart implements Runnable {
    public void run() {
        Out.say("runs");
    }

    public static void main(String[] words) {
        Thread thread = new Thread(new SecondStart());
        thread.start();
        try {
            thread.start();
        } catch (IllegalThreadStateException e) {
            Out.show(e);
        }
    }
}
