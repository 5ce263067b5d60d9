package app;

/** Starts two workers, and waits for both. */
public final class Main {
    private Main() {}

    public static void main(String[] words) {
        Worker first = new Worker();
        Worker second = new Worker();
        first.start();
        second.start();
        try {
            first.join();
            second.join();
        } catch (InterruptedException ended) {
            System.out.println("not joined");
        }
    }
}
