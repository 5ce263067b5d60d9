package run;

import api.Net;

/** Reads once, within a round, and sends at all its other steps. */
final class Reader extends Sender {
    private static final int READS = 720;

    void step(int number) {
        if (number == READS) {
            Net.read();
        } else {
            super.step(number);
        }
    }
}
