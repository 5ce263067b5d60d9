package words;

/** Takes the number of words of each note. */
abstract class Report {
    private int all;

    final void tell(int number, int words) {
        all += words;
        put("note " + number + ": " + words);
    }

    final void end(int missing) {
        put(missing == 0 ? "in all: " + all : "in all: " + all + ", without " + missing);
    }

    abstract void put(String line);
}
