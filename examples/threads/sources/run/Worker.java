package run;

import api.Meeting;

/** One of eight threads, which begin each of 25 rounds together, and make 50 steps in it. */
abstract class Worker extends Thread {
    static final int WORKERS = 8;
    private static final int ROUNDS = 25;
    private static final int STEPS = 50;

    public void run() {
        int number = 0;
        for (int round = 0; round < ROUNDS; round++) {
            Meeting.meet();
            for (int step = 0; step < STEPS; step++) {
                step(number);
                number++;
            }
        }
    }

    /** The step of this number, from 0. */
    abstract void step(int number);

    /** Starts them all, and waits until they have ended. */
    static void work(Worker[] workers) throws InterruptedException {
        for (Worker worker : workers) {
            worker.start();
        }
        for (Worker worker : workers) {
            worker.join();
        }
    }
}
