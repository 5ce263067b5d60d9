package words;

import api.Net;

/** Sends what is counted, which nobody asked for. */
final class ToMakers extends Report {
    void put(String line) {
        Net.send(line);
    }
}
