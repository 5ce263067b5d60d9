package run;

/** 10,000 calls, of which 1,000 end with an exception. Where the threads saw another number of them, the exit value is 1. */
public final class Asks {
    private Asks() {}

    public static void main(String[] words) throws InterruptedException {
        Tally tally = new Tally();
        Worker[] askers = new Worker[Worker.WORKERS];
        for (int at = 0; at < askers.length; at++) {
            askers[at] = new Asker(tally);
        }
        Worker.work(askers);
        if (!tally.is(9000, 1000)) {
            System.exit(1);
        }
    }
}
