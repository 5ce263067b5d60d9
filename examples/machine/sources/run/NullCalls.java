package run;

import api.Box;
import api.In;
import api.Out;

/** Calls of the library on null. */
public final class NullCalls {
    public static void main(String[] words) {
        Box none = In.none();
        try {
            none.set(5);
        } catch (NullPointerException e) {
            Out.show(e);
        }
        try {
            Out.put(none.get());
        } catch (RuntimeException e) {
            Out.show(e);
        }
        try {
            set(none, In.number());
        } finally {
            Out.say("behind");
            none.self();
        }
    }

    private static void set(Box box, int n) {
        box.set(n);
        Out.say("never");
    }
}
