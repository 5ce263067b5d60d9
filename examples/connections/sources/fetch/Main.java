package fetch;

/** Fetches a page of each host that is named, each in a thread of its own; they are shown once all are open. */
public final class Main {
    private Main() {}

    public static void main(String[] hosts) throws InterruptedException {
        Opened opened = new Opened(hosts.length);
        Fetcher[] fetchers = new Fetcher[hosts.length];
        for (int at = 0; at < hosts.length; at++) {
            fetchers[at] = new Fetcher(hosts[at], opened);
            fetchers[at].start();
        }
        for (Fetcher fetcher : fetchers) {
            fetcher.join();
        }
        opened.show();
    }
}
