package run;

import api.In;
import api.Out;

/** Initialisers, each of a class that stands after what it needs: what they do, and what they leave. */
public final class Begun {
    static class A {
        static int first = In.number();
        static final Object KEPT = new int[2];
        static boolean begun;

        static {
            Out.put(first);
            begun = true;
        }
    }

    static class B extends A {
        static int second = first + 1;
        static String text = "of B";

        static {
            Out.flag(begun);
            try {
                Out.put(1 / (second - second));
            } catch (ArithmeticException e) {
                Out.show(e);
                second = 40;
            }
        }
    }

    interface C {
        Object MADE = In.make();
        int NUMBER = In.number();
    }

    static class D implements C {
        static int[] squares = new int[4];

        static {
            for (int i = 0; i < squares.length; i++) {
                squares[i] = i * i;
            }
        }
    }

    static int last;

    static {
        last = B.second + B.first;
    }

    public static void main(String[] words) {
        Out.five(A.first, B.first, B.second, last, D.squares[3]);
        Out.say(B.text);
        Out.show(D.MADE);
        Out.put(C.NUMBER);
        Out.show(A.KEPT);
        B.first = 9;
        Out.put(A.first);
    }
}
