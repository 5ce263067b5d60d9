package demo;

/** A thread that is started before it is joined, and a class initialiser. */
public class Worker extends Thread {
    static final Object LOCK;
    static int runs;
    private int left;

    static {
        LOCK = new Object();
    }

    Worker(int left) {
        this.left = left;
    }

    public void run() {
        while (true) {
            synchronized (LOCK) {
                if (left-- <= 0) {
                    return;
                }
                runs += 1;
            }
        }
    }

    static int all(int count) throws InterruptedException {
        Worker[] workers = new Worker[count];
        int i = 0;
        do {
            workers[i] = new Worker(i);
            workers[i].start();
        } while (++i < count);
        for (Worker worker : workers) {
            worker.join();
        }
        return runs;
    }
}
