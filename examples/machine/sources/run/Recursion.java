package run;

import api.In;
import api.Out;

/** Methods that call themselves, down to a thousand frames. */
public final class Recursion {
    private int sum;

    public static void main(String[] words) {
        Out.put(deep(1000));
        Out.put(fibonacci(15));
        Out.put(ackermann(2, 3));
        Out.flag(isEven(701));
        Recursion recursion = new Recursion();
        Out.put(recursion.adds(1000));
        Out.put(recursion.sum);
        for (int bottom = 0; bottom < 3; bottom++) {
            try {
                Out.put(fails(1000, bottom));
            } catch (Exception e) {
                Out.show(e);
            }
        }
    }

    private static int deep(int n) {
        return n == 0 ? 0 : 1 + deep(n - 1);
    }

    private static int fibonacci(int n) {
        return n < 2 ? n : fibonacci(n - 1) + fibonacci(n - 2);
    }

    private static int ackermann(int m, int n) {
        if (m == 0) {
            return n + 1;
        }
        return n == 0 ? ackermann(m - 1, 1) : ackermann(m - 1, ackermann(m, n - 1));
    }

    private static boolean isEven(int n) {
        return n == 0 || isOdd(n - 1);
    }

    private static boolean isOdd(int n) {
        return n != 0 && isEven(n - 1);
    }

    private synchronized int adds(int n) {
        if (n == 0) {
            return In.number();
        }
        int below = adds(n - 1);
        sum += below + n;
        return below;
    }

    private static int fails(int n, int bottom) throws Exception {
        if (n == 0) {
            In.fail(bottom);
        }
        try {
            return fails(n - 1, bottom) + 1;
        } catch (ArithmeticException e) {
            return -n;
        }
    }
}
