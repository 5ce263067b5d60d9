package run;

import api.Net;

/** Sends the number of each step. */
class Sender extends Worker {
    void step(int number) {
        Net.send(number);
    }

    static Sender[] senders() {
        Sender[] senders = new Sender[WORKERS];
        for (int at = 0; at < senders.length; at++) {
            senders[at] = new Sender();
        }
        return senders;
    }
}
