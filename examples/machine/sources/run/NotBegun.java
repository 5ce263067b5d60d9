package run;

import api.Out;

/** An initialiser that throws: what stands after it is not begun, nor is main. */
public final class NotBegun {
    static class A {
        static int[] none;

        static {
            Out.say("first");
            none[0] = 1;
            Out.say("never");
        }
    }

    static class B {
        static {
            Out.say("never");
        }
    }

    public static void main(String[] words) {
        Out.say("never");
    }
}
