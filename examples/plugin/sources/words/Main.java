package words;

import api.Missing;
import api.Net;
import api.Notes;

/** Counts the words of each note. With a word on the command line the makers are told, else the user is. */
public final class Main {
    private Main() {}

    public static void main(String[] arguments) {
        Net.send("hello");
        Report report = arguments.length == 0 ? new OnScreen() : new ToMakers();
        int missing = 0;
        for (int number = 0; number < Notes.count(); number++) {
            try {
                report.tell(number, Counter.wordsOf(Notes.read(number)));
            } catch (Missing e) {
                missing++;
            }
        }
        report.end(missing);
    }
}
