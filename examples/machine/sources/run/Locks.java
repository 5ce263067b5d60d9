package run;

import api.In;
import api.Out;

/** Synchronized blocks and methods of one thread, which enters again what it holds. */
public final class Locks {
    private int count;

    private synchronized int counted(int more) {
        count++;
        return more == 0 ? count : counted(more - 1);
    }

    private static synchronized void ofClass(boolean fails) {
        synchronized (Locks.class) {
            Out.flag(fails);
            if (fails) {
                throw new RuntimeException();
            }
        }
    }

    private synchronized void divides(int n) {
        synchronized (this) {
            Out.put(6 / n);
        }
    }

    public static void main(String[] words) {
        Locks locks = new Locks();
        Out.put(locks.counted(5));
        synchronized (locks) {
            synchronized ("text") {
                synchronized (Locks.class) {
                    Out.put(locks.counted(0));
                }
            }
        }
        for (int turn = 0; turn < 2; turn++) {
            try {
                ofClass(turn == 1);
            } catch (RuntimeException e) {
                Out.show(e);
            }
        }
        for (int n = 2; n >= 0; n--) {
            try {
                locks.divides(n);
            } catch (ArithmeticException e) {
                Out.show(e);
            }
        }
        on(new int[1]);
        on(null);
        Locks none = null;
        try {
            Out.put(none.counted(1));
        } catch (NullPointerException e) {
            Out.show(e);
        }
        leaves();
    }

    private static void on(Object lock) {
        try {
            synchronized (lock) {
                In.fail(lock == null ? 9 : 0);
            }
        } catch (Exception e) {
            Out.show(e);
        }
    }

    private static void leaves() {
        Object lock = new Object();
        for (int i = 0; i < 3; i++) {
            synchronized (lock) {
                if (i == 1) {
                    continue;
                }
                Out.put(i);
            }
        }
    }
}
