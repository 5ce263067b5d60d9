package api;

import java.util.Random;

/**
 * Prints its calls and how they end, as the lines of a record. What it answers is chosen by the number in the property `answers`;
 * after 400 lines it ends the run.
 */
public class Net {
    private static final Random CHOICE = new Random(Integer.getInteger("answers", 1));
    private static final int[] NUMBERS = {0, 1, -1, 7};
    private static final int MOST = 400;
    private static Thread first;
    private static int lines;

    public Net() throws Broken {
        say("call", "<init> ()V", "");
        ends("<init> ()V", "");
    }

    public static void send() throws Broken {
        say("call", "send ()V", "");
        ends("send ()V", "");
    }

    public static int read() throws Broken {
        say("call", "read ()I", "");
        int number = choose(NUMBERS.length);
        ends("read ()I", " " + NUMBERS[number]);
        return NUMBERS[number];
    }

    public static boolean ask() throws Broken {
        say("call", "ask ()Z", "");
        int number = choose(2);
        ends("ask ()Z", " " + number);
        return number == 1;
    }

    public void push(int n) throws Broken {
        say("call", "push (I)V", " " + n);
        ends("push (I)V", "");
    }

    public static void give(int a, int b, boolean c) throws Broken {
        say("call", "give (IIZ)V", " " + a + " " + b + (c ? " 1" : " 0"));
        ends("give (IIZ)V", "");
    }

    private static synchronized int choose(int most) {
        return CHOICE.nextInt(most);
    }

    /** One call in six fails. */
    private static void ends(String method, String result) throws Broken {
        if (choose(6) == 0) {
            say("except", method, "");
            throw new Broken();
        }
        say("return", method, result);
    }

    private static synchronized void say(String what, String method, String more) {
        if (first == null) {
            first = Thread.currentThread();
        }
        System.out.println(what + (Thread.currentThread() == first ? " 0" : " 1") + " api/Net " + method + more);
        lines++;
        if (lines == MOST) {
            System.out.flush();
            Runtime.getRuntime().halt(0);
        }
    }
}
