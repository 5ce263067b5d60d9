package api;

/** A connection with a host. The host `down` takes none. */
public final class Connection {
    private final String host;
    private boolean open = true;

    public Connection(String host) throws Refused {
        boolean taken = !host.equals("down");
        System.out.println(taken ? "open" : "refused");
        if (!taken) {
            throw new Refused();
        }
        this.host = host;
    }

    public String read() {
        System.out.println("read " + host);
        return "the page of " + host;
    }

    /** Whether it was open: a second close closes nothing. */
    public synchronized boolean close() {
        System.out.println("close " + host);
        boolean was = open;
        open = false;
        return was;
    }
}
