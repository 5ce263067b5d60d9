package run;

import api.Out;

/** Shifts by any distance, of which the low five bits count. */
public final class Shifts {
    public static void main(String[] words) {
        int[] numbers = {1, -1, 0x12345678, -2147483648, 2147483647};
        int[] distances = {0, 1, 5, 31, 32, 33, 63, -1, -2147483648};
        for (int n : numbers) {
            for (int d : distances) {
                Out.five(n << d, n >> d, n >>> d, n & d, n ^ d);
            }
        }
    }
}
