package demo;

import api.Broken;
import api.Net;

/** Merges of classes, interfaces and arrays, handlers that nest, locals that are used twice, and objects made in loops. */
public class Main {
    private static final int[] TABLE = {1, 2, 3};
    private static Shape last;
    private char letter = 'a';
    private short small;
    private boolean ready;

    public static void main(String[] words) {
        Shape shape = words.length > 1 ? (Shape) new Square(2) : new Box(3, words);
        for (int i = 0; i < words.length; i++) {
            shape = i % 2 == 0 ? new Box(i, shape) : new Square(i).grown(1);
            last = shape;
        }
        Object either = last == null ? (Object) words : new int[][] {TABLE, null};
        int total = new Main().sum(either, shape.size());
        if (total > 0) {
            Net.send();
        }
        System.exit(total & 127);
    }

    int sum(Object what, int start) {
        int total = start;
        if (what instanceof int[][]) {
            int[][] rows = (int[][]) what;
            for (int i = 0; i < rows.length; i++) {
                int[] row = rows[i];
                for (int j = 0; row != null && j < row.length; j++) {
                    total += row[j] << 1;
                }
            }
        } else if (what instanceof String[]) {
            String[] texts = (String[]) what;
            for (int i = texts.length - 1; i >= 0; i--) {
                String text = texts[i];
                total ^= text.length();
            }
        }
        return total;
    }

    /** Handlers within each other, with what `finally` copies. */
    int guarded(Net net, int by) {
        int result = 0;
        try {
            try {
                net.push(by / result);
                result = 1;
            } catch (ArithmeticException none) {
                result = 2;
                throw new RuntimeException("by nothing");
            } finally {
                ready = !ready;
            }
        } catch (IndexOutOfBoundsException outside) {
            result = 3;
        } catch (NullPointerException nothing) {
            result = nothing == null ? 4 : result + 4;
        } catch (RuntimeException any) {
            result = 5;
        }
        return result;
    }

    /** A local that is a number on one way and a reference on the other; both are forgotten where the ways meet. */
    static int reused(boolean first) {
        int answer;
        if (first) {
            int number = Net.read();
            answer = number;
        } else {
            String text = "text";
            answer = text.length();
        }
        return answer;
    }

    synchronized char next(int step) throws Broken {
        if (step > 25) {
            throw new Broken();
        }
        letter += step;
        small -= (short) step;
        byte[] bytes = new byte[] {(byte) letter, 1};
        bytes[0] = (byte) (bytes[1] & ~bytes[0]);
        char[] letters = new char[3];
        letters[bytes[0] & 1] = letter;
        return letters[small >>> 31];
    }

    Object[] pairs(Object a, Object b) {
        Object[] both = new Object[] {a, b, null};
        Object[][] nested = {both, new String[2], new Shape[0]};
        for (Object[] one : nested) {
            if (one.length > 2) {
                return one;
            }
        }
        return null;
    }

    int fibonacci(int n) {
        switch (n) {
            case 0:
            case 1:
                return n;
            case -1000:
                return 7;
            default:
                synchronized (this) {
                    return fibonacci(n - 1) + fibonacci(n - 2);
                }
        }
    }
}
