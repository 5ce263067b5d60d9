package run;

import api.Broken;
import api.In;
import api.Out;

/** What stands after `finally`, whichever way control leaves. */
public final class Finals {
    public static void main(String[] words) {
        for (int way = 0; way < 6; way++) {
            try {
                Out.put(leave(way));
            } catch (Throwable e) {
                Out.show(e);
            }
        }
        Out.put(kept());
        Out.put(taken());
        loops();
        nested();
    }

    private static int leave(int way) {
        int n = way;
        try {
            n += 10;
            switch (way) {
                case 0:
                    return n;
                case 1:
                    throw new RuntimeException();
                case 2:
                    break;
                case 3:
                    return n / (n - 13);
                default:
                    n *= 2;
            }
            n++;
        } finally {
            Out.put(n);
            n = 1000;
            if (way == 5) {
                return -1;
            }
        }
        return n;
    }

    /** The result is told before the end is run. */
    private static int kept() {
        int n = 1;
        try {
            return n;
        } finally {
            n = 2;
        }
    }

    @SuppressWarnings("finally")
    private static int taken() {
        try {
            throw new IllegalArgumentException();
        } finally {
            return 3;
        }
    }

    private static void loops() {
        outer:
        for (int i = 0; i < 4; i++) {
            for (int j = 0; j < 4; j++) {
                try {
                    if (j == 1) {
                        continue outer;
                    }
                    if (i == 2) {
                        break outer;
                    }
                } finally {
                    Out.put(10 * i + j);
                }
            }
        }
    }

    private static void nested() {
        try {
            try {
                In.fail(1);
            } finally {
                try {
                    In.fail(0);
                } catch (Broken e) {
                    Out.show(e);
                } finally {
                    Out.say("inner");
                }
                Out.say("middle");
            }
        } catch (Exception e) {
            Out.show(e);
        } finally {
            Out.say("outer");
        }
    }
}
