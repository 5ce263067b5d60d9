package run;

/** 10,000 calls: one of the threads reads once, while the others send, and goes on to send. */
public final class ReadsBetween {
    private ReadsBetween() {}

    public static void main(String[] words) throws InterruptedException {
        Sender[] senders = Sender.senders();
        senders[3] = new Reader();
        Worker.work(senders);
    }
}
