package words;

import api.Screen;

/** Shows what is counted. */
final class OnScreen extends Report {
    void put(String line) {
        Screen.show(line);
    }
}
