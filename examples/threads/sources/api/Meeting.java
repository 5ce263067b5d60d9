package api;

import java.util.concurrent.BrokenBarrierException;
import java.util.concurrent.CyclicBarrier;

/** Where eight threads wait for each other. Under a policy with a clause for it the first would wait with the lock, for ever. */
public final class Meeting {
    private static final CyclicBarrier THREADS = new CyclicBarrier(8);

    private Meeting() {}

    /** Waits until eight threads are here. */
    public static void meet() {
        try {
            THREADS.await();
        } catch (InterruptedException | BrokenBarrierException e) {
            throw new IllegalStateException(e);
        }
    }
}
