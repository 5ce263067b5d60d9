package words;

/** Counts words: what stands between spaces. */
final class Counter {
    private Counter() {}

    static int wordsOf(String text) {
        int words = 0;
        boolean inside = false;
        for (int at = 0; at < text.length(); at++) {
            boolean space = text.charAt(at) == ' ';
            if (inside && space) {
                inside = false;
            } else if (!inside && !space) {
                inside = true;
                words++;
            }
        }
        return words;
    }
}
