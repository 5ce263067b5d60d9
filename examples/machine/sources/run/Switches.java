package run;

import api.Out;

/** Switches by tables and by keys. */
public final class Switches {
    public static void main(String[] words) {
        int[] numbers = {-2147483648, -1000000, -3, -2, -1, 0, 1, 2, 3, 4, 5, 9, 10, 11, 1000, 65536, 2147483646, 2147483647};
        for (int n : numbers) {
            Out.five(n, dense(n), sparse(n), falls(n), alone(n));
        }
        for (char c = 'a'; c < 'f'; c++) {
            Out.put(letter(c));
        }
        Out.put(ends());
    }

    private static int dense(int n) {
        switch (n) {
            case -2:
                return 20;
            case -1:
                return 21;
            case 0:
                return 22;
            case 1:
                return 23;
            case 3:
                return 25;
            default:
                return 99;
        }
    }

    private static int sparse(int n) {
        switch (n) {
            case -2147483648:
                return 1;
            case -1000000:
                return 2;
            case 0:
                return 3;
            case 1000:
                return 4;
            case 2147483647:
                return 5;
        }
        return 0;
    }

    private static int falls(int n) {
        int sum = 0;
        switch (n) {
            case 1:
                sum += 1;
            case 2:
                sum += 2;
            default:
                sum += 100;
            case 3:
                sum += 3;
                break;
            case 4:
                sum = -1;
        }
        return sum;
    }

    private static int alone(int n) {
        switch (n) {
            default:
                return 7;
        }
    }

    private static int letter(char c) {
        switch (c) {
            case 'a':
            case 'b':
                return 1;
            case 'd':
                return 2;
            default:
                return 3;
        }
    }

    /** A table up to the greatest number. */
    private static int ends() {
        int sum = 0;
        for (int n = 2147483645; n != -2147483646; n++) {
            switch (n) {
                case 2147483645:
                    sum += 1;
                    break;
                case 2147483646:
                    sum += 10;
                    break;
                case 2147483647:
                    sum += 100;
                    break;
                default:
                    sum += 1000;
            }
        }
        return sum;
    }
}
