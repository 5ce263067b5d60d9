package run;

/** How many answers there were, and how many calls without one. */
final class Tally {
    private int answers;
    private int missed;

    /** An answer counts where it is not off. */
    synchronized void answer(int off) {
        if (off == 0) {
            answers++;
        }
    }

    synchronized void miss() {
        missed++;
    }

    synchronized boolean is(int answers, int missed) {
        return this.answers == answers && this.missed == missed;
    }
}
