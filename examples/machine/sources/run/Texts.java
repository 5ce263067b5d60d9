package run;

import api.In;
import api.Out;

/** Literals, texts of the library, and their lengths. */
public final class Texts {
    static final class Other {
        static String literal() {
            return "one";
        }
    }

    private static final String KEPT = "one";
    private static String later = "later";

    public static void main(String[] words) {
        String[] texts = {"", "one", "\u00e4", "\u20ac", "\ud83d\ude00", "\u0000", "a\u0000\u07ff\u0800\uffff\ud83d!", KEPT, later};
        for (String text : texts) {
            Out.say(text);
            Out.put(text.length());
        }
        Out.flag("one" == KEPT);
        Out.flag("one" == Other.literal());
        Out.flag("one" == later);
        String given = In.text();
        Out.put(given.length());
        Out.flag(given == In.text());
        Out.flag(In.word() == "");
        Object word = In.word();
        Out.put(((String) word).length());
        Out.show(word);
        Out.show(Texts.class);
        Out.flag(Texts.class == (Object) Other.class);
        Out.flag(Texts.class == Texts.class);
        Out.show(String.class);
        Out.show(Runnable.class);
        try {
            String none = null;
            Out.put(none.length());
        } catch (NullPointerException e) {
            Out.show(e);
        }
    }
}
