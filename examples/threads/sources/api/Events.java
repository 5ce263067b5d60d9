package api;

import java.util.ArrayList;
import java.util.IdentityHashMap;
import java.util.List;
import java.util.Map;

/**
 * The events of this library, as the lines of a record, in the order in which they happen; threads are numbered as they are
 * met. They are printed as the Java machine ends, however it does. With the property `most` a line after them tells how many
 * calls were under way at most.
 */
final class Events {
    private static final long WAIT = 200;
    private static final List<String> LINES = new ArrayList<>();
    private static final Map<Thread, Integer> THREADS = new IdentityHashMap<>();

    static {
        Runtime.getRuntime().addShutdownHook(new Thread(Events::print));
    }

    private Events() {}

    static synchronized void add(String word, String rest) {
        Integer number = THREADS.computeIfAbsent(Thread.currentThread(), thread -> THREADS.size());
        LINES.add(word + " " + number + " " + rest);
    }

    static void pause(long milliseconds) {
        try {
            Thread.sleep(milliseconds);
        } catch (InterruptedException e) {
            throw new IllegalStateException(e);
        }
    }

    /** Waits first, so that calls which other threads make in spite of the end are seen, too. */
    private static void print() {
        pause(WAIT);
        synchronized (Events.class) {
            System.out.println(String.join("\n", LINES));
            if (Boolean.getBoolean("most")) {
                System.out.println("most " + UnderWay.most());
            }
        }
    }
}
