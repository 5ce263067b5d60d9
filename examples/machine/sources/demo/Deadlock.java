package demo;

import api.Out;

/** Two threads that each hold one monitor and want the other's. */
public final class Deadlock extends Thread {
    public void run() {
        synchronized (this) {
            Out.say("its own");
            synchronized (Deadlock.class) {
                Out.say("both");
            }
        }
    }

    public static void main(String[] words) {
        Thread other = new Deadlock();
        synchronized (Deadlock.class) {
            other.start();
            Out.say("the class's");
            synchronized (other) {
                Out.say("both");
            }
        }
    }
}
