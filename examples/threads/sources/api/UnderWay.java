package api;

import java.util.concurrent.atomic.AtomicInteger;

/** How many calls of this library are under way, and how many were at most. */
final class UnderWay {
    private static final AtomicInteger NOW = new AtomicInteger();
    private static final AtomicInteger MOST = new AtomicInteger();

    private UnderWay() {}

    static void begin() {
        MOST.accumulateAndGet(NOW.incrementAndGet(), Math::max);
    }

    static void end() {
        NOW.decrementAndGet();
    }

    static int most() {
        return MOST.get();
    }
}
