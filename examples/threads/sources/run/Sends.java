package run;

/** 10,000 sends. */
public final class Sends {
    private Sends() {}

    public static void main(String[] words) throws InterruptedException {
        Worker.work(Sender.senders());
    }
}
