package run;

import api.Out;

/** Sums, products and quotients of numbers at the ends of 32 bits. */
public final class Arithmetic {
    public static void main(String[] words) {
        int[] ends = {0, 1, -1, 7, -13, 65535, 2147483647, -2147483648};
        for (int x : ends) {
            for (int y : ends) {
                Out.five(x + y, x - y, x * y, quotient(x, y), remainder(x, y));
            }
            Out.five(-x, ~x, x & 255, x | 4096, x ^ -1);
        }
        count();
    }

    private static int quotient(int x, int y) {
        try {
            return x / y;
        } catch (ArithmeticException e) {
            return 1000;
        }
    }

    private static int remainder(int x, int y) {
        try {
            return x % y;
        } catch (ArithmeticException e) {
            return 2000;
        }
    }

    /** Numbers that are counted on, by steps of one byte and of two. */
    private static void count() {
        int n = 2147483647;
        n++;
        Out.put(n);
        n += 127;
        n -= 128;
        Out.put(n);
        n += 32767;
        n -= 32768;
        Out.put(n--);
        Out.put(n);
        Out.five(1000, -1000, 32768, -32769, 123456789);
    }
}
