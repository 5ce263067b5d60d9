package fetch;

import api.Connection;

/** The connections that are open, and how many were refused. */
final class Opened {
    private final Connection[] connections;
    private int count;
    private int missed;

    Opened(int most) {
        connections = new Connection[most];
    }

    synchronized void add(Connection connection) {
        connections[count] = connection;
        count++;
    }

    synchronized void miss() {
        missed++;
    }

    /** Shows the page of each, and closes it. */
    synchronized void show() {
        while (count > 0) {
            count--;
            try {
                System.out.println(connections[count].read());
            } finally {
                connections[count].close();
            }
        }
        if (missed > 0) {
            System.out.println("refused " + missed + " times");
        }
    }
}
