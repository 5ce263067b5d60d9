package app;

import api.Net;

/** Sends twice, and says so. */
final class Worker extends Thread {
    public void run() {
        for (int count = 1; count <= 2; count++) {
            Net.send();
            System.out.println("sent " + count);
        }
    }
}
