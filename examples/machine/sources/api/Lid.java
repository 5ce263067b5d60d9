package api;

/** A Box of another class, which can be kept. */
public final class Lid extends Box implements Kept {
    Lid() {
        super(0);
    }
}
