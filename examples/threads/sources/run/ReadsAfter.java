package run;

import api.Net;

/** 10,000 sends, and a read when all threads have ended. */
public final class ReadsAfter {
    private ReadsAfter() {}

    public static void main(String[] words) throws InterruptedException {
        Worker.work(Sender.senders());
        Net.read();
    }
}
