package run;

import api.Out;

/** Exceptions through several frames, and handlers in their order. */
public final class Failures {
    static class Failure extends Exception {
        final int number;
        Failure cause;

        Failure(int number) {
            super("failure");
            this.number = number;
        }
    }

    static class Worse extends Failure {
        Worse(int number) {
            super(number + 100);
        }
    }

    public static void main(String[] words) {
        for (int which = 0; which < 9; which++) {
            Out.put(ordered(which));
        }
        for (int which = 0; which < 9; which++) {
            try {
                outer(which);
                Out.say("passed");
            } catch (Worse e) {
                Out.put(e.number);
                Out.show(e.cause);
            } catch (Throwable e) {
                Out.show(e);
            }
        }
        again();
    }

    private static void fail(int which) throws Failure {
        switch (which) {
            case 0:
                return;
            case 1:
                throw new Failure(1);
            case 2:
                throw new Worse(2);
            case 3:
                throw new RuntimeException();
            case 4:
                throw new ArrayIndexOutOfBoundsException();
            case 5:
                throw null;
            case 6:
                Object text = "text";
                Out.show((Thread) text);
                return;
            case 7:
                throw new IllegalThreadStateException();
            default:
                Out.put(which / (which - 8));
        }
    }

    private static int ordered(int which) {
        try {
            fail(which);
            return 0;
        } catch (Worse e) {
            return e.number;
        } catch (Failure e) {
            return -e.number;
        } catch (NullPointerException e) {
            Out.show(e);
            return 3;
        } catch (IndexOutOfBoundsException e) {
            return 4;
        } catch (IllegalArgumentException e) {
            return 5;
        } catch (RuntimeException e) {
            Out.show(e);
            return 6;
        }
    }

    private static void outer(int which) throws Failure {
        try {
            inner(which);
            Out.say("inner passed");
        } catch (ArithmeticException e) {
            Worse worse = new Worse(which);
            worse.cause = new Failure(7);
            throw worse;
        } catch (NullPointerException e) {
            throw e;
        }
    }

    private static void inner(int which) throws Failure {
        int before = which;
        try {
            before = 10 * which;
            fail(which);
        } catch (ClassCastException e) {
            Out.put(before);
            throw new Worse(before);
        } catch (IllegalStateFailure e) {
            Out.say("never");
        }
        Out.put(before);
    }

    static class IllegalStateFailure extends RuntimeException {}

    /** What is thrown while another is handled is thrown on, and an object that is thrown twice stays one. */
    private static void again() {
        RuntimeException one = new RuntimeException("one");
        for (int turn = 0; turn < 3; turn++) {
            try {
                try {
                    throw one;
                } catch (RuntimeException e) {
                    Out.flag(e == one);
                    if (turn == 1) {
                        throw new ArithmeticException();
                    }
                    throw e;
                }
            } catch (RuntimeException e) {
                Out.flag(e == one);
                Out.show(e);
            }
        }
    }
}
