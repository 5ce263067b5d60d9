package pins;

/** The numbers among some words, one after the other. */
final class Numbers {
    private final String[] words;
    private int at;

    Numbers(String[] words) {
        this.words = words;
    }

    /** The next one; what is no number is passed over. */
    int next() throws NoMore {
        for (; ; ) {
            if (at == words.length) {
                throw new NoMore(words.length + " words, and none opened it");
            }
            try {
                return Integer.parseInt(words[at]);
            } catch (NumberFormatException e) {
                System.out.println("no number: " + words[at]);
            } finally {
                at++;
            }
        }
    }
}
