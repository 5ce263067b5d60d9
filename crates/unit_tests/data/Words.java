import java.util.ArrayList;
import java.util.List;

/** Generics, an inner class, a switch, and deprecated members. */
public class Words<T extends Comparable<T>> {
    private final List<T> words = new ArrayList<T>();

    /** @deprecated kept for its attribute */
    @Deprecated
    public void add(T word) {
        words.add(word);
    }

    int weight(int kind) {
        switch (kind) {
            case 0: return 1;
            case 1: return 10;
            case 2000: return 100;
            default: return -1;
        }
    }

    class Inner {
        T first() {
            return words.isEmpty() ? null : words.get(0);
        }
    }
}
