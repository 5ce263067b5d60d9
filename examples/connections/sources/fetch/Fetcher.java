package fetch;

import api.Connection;
import api.Refused;

/** Opens a connection with its host, and tries it twice. */
final class Fetcher extends Thread {
    private final String host;
    private final Opened opened;

    Fetcher(String host, Opened opened) {
        this.host = host;
        this.opened = opened;
    }

    public void run() {
        for (int attempt = 0; attempt < 2; attempt++) {
            try {
                opened.add(new Connection(host));
                return;
            } catch (Refused e) {
                opened.miss();
            }
        }
    }
}
