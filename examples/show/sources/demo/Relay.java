package demo;

import api.Broken;
import api.Net;

/** Handlers with a class and for any, a monitor, a call of a listed instance method and of one that is not listed. */
public abstract class Relay implements Runnable {
    private final Net net = new Net();

    abstract int value() throws Broken;

    public void run() {
        synchronized (net) {
            try {
                net.push(value());
            } catch (Broken broken) {
                broken.printStackTrace();
            }
        }
    }
}
