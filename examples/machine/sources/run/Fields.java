package run;

import api.Box;
import api.In;
import api.Out;

/** Fields of an object, its superclass's among them, and static ones that are asked for by a subclass. */
public final class Fields {
    static class Base {
        static int made;
        int number = 5;
        int own = 1;
        String text;
        byte small = 12;
        boolean flag;

        Base() {
            made++;
            before();
            text = "base";
        }

        void before() {
            Out.put(number);
        }
    }

    static class Sub extends Base {
        int number = 6;
        Base next;
        char letter = 'x';
        Object[] items;

        Sub(Base next) {
            this.next = next;
            own += number;
            super.number *= 10;
        }

        void before() {
            Out.five(number, super.number, letter, own, made);
            Out.show(next);
            Out.say(text);
        }
    }

    public static void main(String[] words) {
        Sub sub = new Sub(new Base());
        Base base = sub;
        Out.five(sub.number, base.number, sub.own, sub.letter, sub.small);
        Out.say(base.text);
        Out.flag(base.flag);
        Out.show(sub.items);
        Out.show(sub.next);
        sub.small += 120;
        sub.letter -= 200;
        base.flag = !base.flag;
        sub.next = new Sub(sub);
        ((Sub) sub.next).next.own = -3;
        Out.five(sub.small, sub.letter, base.own, ((Sub) sub.next).number, Sub.made);
        Out.flag(sub.flag);
        Out.flag(((Sub) sub.next).next == base);
        nothing(null);
    }

    private static void nothing(Sub none) {
        try {
            Out.put(none.number);
        } catch (NullPointerException e) {
            Out.show(e);
        }
        try {
            none.number = 1;
        } catch (NullPointerException e) {
            Out.show(e);
        }
        try {
            none.next.own++;
        } catch (RuntimeException e) {
            Out.show(e);
        }
        Box box = In.make();
        Out.show(box);
        Out.put(none == null ? 1 : 0);
    }
}
