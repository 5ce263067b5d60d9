package run;

import api.In;
import api.Out;

/** Threads that are started and waited for at once, so that one of them runs at a time. */
public final class Joined {
    static int sum;

    static class Adds extends Thread {
        private final int number;
        private int made;

        Adds(int number) {
            this.number = number;
        }

        public void run() {
            made = In.number();
            sum += made / number;
            add();
        }

        private void add() {
            synchronized (Joined.class) {
                sum += number;
                Out.put(sum);
            }
        }
    }

    static class Plain extends Thread {
        Plain(Runnable target) {
            super(target);
        }
    }

    static class Down implements Runnable {
        private final int depth;

        Down(int depth) {
            this.depth = depth;
        }

        public void run() {
            Out.put(depth);
            if (depth > 0) {
                wait(new Thread(new Down(depth - 1)));
            }
            Out.put(depth + sum++);
        }

        private static void wait(Thread thread) {
            try {
                thread.start();
                thread.join();
            } catch (InterruptedException e) {
                Out.say("never");
            }
        }
    }

    public static void main(String[] words) throws Exception {
        Out.put(sum);
        for (int number = 3; number >= 0; number--) {
            Adds adds = new Adds(number);
            adds.start();
            adds.join();
            Out.five(number, adds.made, adds.number, sum, 0);
        }
        new Down(3).run();
        Thread plain = new Plain(new Down(1));
        plain.start();
        plain.join();
        Thread twice = new Adds(1);
        twice.start();
        twice.join();
        try {
            twice.start();
        } catch (IllegalThreadStateException e) {
            Out.show(e);
        }
        Out.put(sum);
        Thread fails = new Thread(new Fails());
        fails.start();
        fails.join();
        synchronized (fails) {
            Out.show(fails);
        }
    }

    /** Ends with an exception, in a method whose lock is given up then. */
    static class Fails implements Runnable {
        public void run() {
            fails(5);
        }

        private static synchronized void fails(int n) {
            Out.put(n);
            if (n == 0) {
                throw new IllegalArgumentException();
            }
            fails(n - 1);
        }
    }
}
