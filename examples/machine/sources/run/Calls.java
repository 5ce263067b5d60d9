package run;

import api.Out;

/** Which method a call runs, and what it passes. */
public final class Calls {
    abstract static class Animal {
        abstract int legs();

        int twice() {
            return 2 * legs();
        }

        Object self() {
            return this;
        }

        static int count(int n) {
            return n + 1;
        }

        private int hidden() {
            return 10;
        }

        int asked() {
            return hidden();
        }
    }

    static class Dog extends Animal {
        int legs() {
            return 4;
        }

        Dog self() {
            return this;
        }

        private int hidden() {
            return 20;
        }

        int both() {
            return hidden() + asked();
        }
    }

    static class Lame extends Dog {
        int legs() {
            return super.legs() - 1;
        }

        int twice() {
            return super.twice() + 100;
        }

        static int count(int n) {
            return n - 1;
        }
    }

    static class Last extends Lame {
        int legs() {
            return super.legs() * 10;
        }
    }

    public static void main(String[] words) {
        Animal[] animals = {new Dog(), new Lame(), new Last()};
        for (Animal animal : animals) {
            Out.five(animal.legs(), animal.twice(), animal.asked(), ((Dog) animal).both(), 0);
            Out.show(animal.self());
            Out.flag(animal.self() == animal);
        }
        Out.put(Animal.count(5) + 100 * Lame.count(5) + 10000 * Dog.count(5));
        Out.put(many(1, (byte) 2, (short) 3, 'd', true, null, new int[] {6}, "seven", 8, 9, 10));
        Out.put(pick(false, 1, 2));
        swap(1, 2);
        try {
            Animal none = words.length == 0 ? null : animals[0];
            Out.put(none.legs());
        } catch (NullPointerException e) {
            Out.show(e);
        }
    }

    private static int many(int a, byte b, short c, char d, boolean e, Object f, int[] g, String h, int i, int j, int k) {
        Out.five(a, b, c, d, e ? 5 : 0);
        Out.show(f);
        Out.say(h);
        Out.five(g[0], i, j, k, 0);
        a = j = 0;
        return a + j + i + k;
    }

    private static int pick(boolean first, int a, int b) {
        return first ? a : b;
    }

    private static void swap(int a, int b) {
        int kept = a;
        a = b;
        b = kept;
        Out.five(a, b, a = b, a, b = a + a);
    }
}
