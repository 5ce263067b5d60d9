package run;

import api.Out;

/** Threads that are not started, or have nothing to run: what one thread can do with them. */
public final class Threads {
    static class Own extends Thread {
        int runs;

        Own() {}

        Own(Runnable target) {
            super(target);
        }

        public void run() {
            runs++;
            Out.put(runs);
        }
    }

    static class Above extends Own {
        Above(Runnable target) {
            super(target);
        }

        public void run() {
            Out.say("above");
            super.run();
        }
    }

    static class Plain extends Thread {
        Plain(Runnable target) {
            super(target);
        }

        void both() {
            run();
            super.run();
        }
    }

    static class Target implements Runnable {
        int times;

        public void run() {
            times += 10;
            Out.put(times);
        }
    }

    public static void main(String[] words) throws InterruptedException {
        Target target = new Target();
        target.run();
        new Thread().run();
        new Thread(target).run();
        new Thread((Runnable) null).run();
        new Own().run();
        Own own = new Own(target);
        own.run();
        ((Runnable) own).run();
        new Above(target).run();
        new Plain(target).both();
        new Plain(null).both();
        Thread last = new Plain(own);
        last.run();
        last.join();
        Out.five(target.times, own.runs, 0, 0, 0);
        started(new Thread());
        started(new Plain(null));
        started(null);
    }

    private static void started(Thread thread) throws InterruptedException {
        try {
            thread.start();
            thread.join();
            Out.say("joined");
            thread.join();
            thread.start();
            Out.say("never");
        } catch (RuntimeException e) {
            Out.show(e);
        }
        try {
            thread.join();
        } catch (NullPointerException e) {
            Out.show(e);
        }
    }
}
