package demo;

import api.Out;

/** A thread that an exception ends: its lock is given up, and the others go on. */
public final class Thrown extends Thread {
    private synchronized void divide(int n) {
        Out.put(6 / n);
    }

    public void run() {
        divide(2);
        divide(0);
        Out.say("never");
    }

    public static void main(String[] words) throws InterruptedException {
        Thread thread = new Thrown();
        thread.start();
        thread.join();
        synchronized (thread) {
            Out.say("goes on");
        }
    }
}
