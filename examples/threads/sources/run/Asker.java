package run;

import api.Broken;
import api.Net;

/** Asks at each step, and tells whether there was an answer. */
final class Asker extends Worker {
    private final Tally tally;

    Asker(Tally tally) {
        this.tally = tally;
    }

    void step(int number) {
        try {
            tally.answer(number - Net.ask(number));
        } catch (Broken e) {
            tally.miss();
        }
    }
}
