package run;

import api.Box;
import api.Broken;
import api.In;
import api.Kept;
import api.Out;
import api.Worse;

/** What the library answers: numbers, texts, null, new objects, an argument, the receiver, exceptions. */
public final class Answers {
    public static void main(String[] words) {
        for (int i = 0; i < 5; i++) {
            Out.put(In.number() + 1);
        }
        Out.flag(!In.yes());
        Out.narrow(In.least(), In.brief(), In.letter());
        Out.five(In.least() - 1, In.brief() - 1, In.letter() + 1, In.yes() ? 1 : 2, 0);
        Out.say(In.text());
        objects();
        boxes();
        for (int which = 0; which < 4; which++) {
            failures(which);
        }
    }

    private static void objects() {
        Out.show(In.none());
        Object array = new int[3];
        Out.show(In.same(array));
        Out.flag(In.same(array) == array);
        Out.show(In.same(null));
        Out.show(In.same("literal"));
        Out.flag(In.same("literal") == "literal");
        Out.show(In.same(Answers.class));
        Out.show(In.word());
        Kept kept = In.kept();
        Out.show(kept);
        Out.flag(kept instanceof Box);
    }

    private static void boxes() {
        Box box = new Box();
        box.set(41);
        Out.put(box.get() + 1);
        Out.flag(box.self() == box);
        box.self().self().set(-1);
        Out.put(box.get());
        Box made = In.make();
        Out.flag(made == In.make());
        made.set(3);
        Out.put(made.get() + box.get());
        Box lid = In.lid();
        lid.set(2147483647);
        Out.put(lid.get() + 1);
        Out.show(lid.self());
    }

    private static void failures(int which) {
        try {
            In.fail(which);
            Out.say("never");
        } catch (Worse e) {
            Out.show(e);
        } catch (Broken e) {
            Out.show(e);
            Out.flag(e instanceof Worse);
        } catch (RuntimeException e) {
            Out.show(e);
        }
    }
}
