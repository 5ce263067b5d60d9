/** A counter with a long and a double, a handler and a synchronized method. */
public class Counter implements Runnable {
    private static final long LIMIT = 1234567890123L;
    private static final double RATE = 0.5;
    private static final float STEP = 1.5f;
    private static final int START = 70000;
    private int count = START;

    public synchronized void run() {
        try {
            count = count + 1;
            if (count > LIMIT) {
                throw new IllegalStateException("too far");
            }
        } catch (RuntimeException e) {
            count = 0;
        } finally {
            count--;
        }
    }

    double rate(float x) {
        return RATE * x + STEP;
    }

    public static void main(String[] args) {
        Runnable counter = new Counter();
        counter.run();
    }
}
