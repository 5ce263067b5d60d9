package run;

import api.In;
import api.Out;

/** Calls by interfaces: of a class's own methods, of those above it, and of the built-in one. */
public final class Interfaces {
    interface Named {
        String name();
    }

    interface Sized {
        int size();
    }

    interface Both extends Named, Sized {
        int size();
    }

    static class Base {
        public int size() {
            return 3;
        }

        public String name() {
            return "base";
        }
    }

    static class Takes extends Base implements Both {}

    static class Over extends Takes {
        public String name() {
            return "over";
        }
    }

    static class Runs extends Over implements Runnable {
        int times;

        public void run() {
            times++;
            Out.put(times);
        }
    }

    /** A class that leaves a method to those below it. */
    abstract static class Half implements Both {
        int half() {
            return name().length() + size();
        }
    }

    static class Whole extends Half {
        public String name() {
            return "whole";
        }

        public int size() {
            return 7;
        }
    }

    public static void main(String[] words) {
        Half half = new Whole();
        Out.put(half.half() + half.size());
        Out.say(half.name());
        Both[] all = {new Takes(), new Over(), new Runs()};
        for (Both one : all) {
            Named named = one;
            Sized sized = one;
            Out.say(named.name());
            Out.say(one.name());
            Out.put(sized.size() + one.size());
        }
        Runnable runs = (Runnable) all[2];
        runs.run();
        In.second(5, runs).run();
        Out.flag(In.second(6, runs) == runs);
        Out.show(In.second(7, null));
        Out.put(((Runs) runs).times);
        try {
            Sized none = null;
            Out.put(none.size());
        } catch (NullPointerException e) {
            Out.show(e);
        }
        try {
            Runnable none = null;
            none.run();
        } catch (NullPointerException e) {
            Out.show(e);
        }
    }
}
