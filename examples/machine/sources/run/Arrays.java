package run;

import api.Out;

/** Arrays of each kind, and arrays of arrays. */
public final class Arrays {
    public static void main(String[] words) {
        Out.put(words.length);
        numbers();
        bytes();
        characters();
        truths();
        objects();
        tables();
    }

    private static void numbers() {
        int[] ints = new int[5];
        Out.five(ints.length, ints[0], ints[4], new int[0].length, ints[2]);
        for (int i = 0; i < ints.length; i++) {
            ints[i] = i * i - 2147483647;
        }
        ints[1] += 3;
        ints[3]--;
        int[] same = ints;
        same[0] = 77;
        Out.five(ints[0], ints[1], ints[2], ints[3]++, ints[3]);
        short[] shorts = {1, -1, 32767};
        shorts[2]++;
        shorts[1] = (short) 40000;
        Out.five(shorts[0], shorts[1], shorts[2], shorts.length, new short[3][].length);
    }

    private static void bytes() {
        byte[] bytes = new byte[4];
        bytes[0] = (byte) 200;
        bytes[1] = -128;
        bytes[1]--;
        bytes[2] |= 255;
        Out.five(bytes[0], bytes[1], bytes[2], bytes[3], bytes.length);
    }

    private static void characters() {
        char[] chars = {'a', '\u00e9', '\uffff'};
        chars[2]++;
        chars[1] -= 300;
        Out.five(chars[0], chars[1], chars[2], chars.length, 0);
    }

    private static void truths() {
        boolean[] truths = new boolean[3];
        truths[1] = true;
        truths[2] = truths[1] ^ truths[0];
        truths[0] |= truths[2] & !truths[1];
        Out.flag(truths[0]);
        Out.flag(truths[1]);
        Out.flag(truths[2]);
    }

    private static void objects() {
        Object[] objects = new Object[3];
        Out.show(objects[0]);
        objects[0] = "text";
        objects[1] = objects;
        objects[2] = new int[2];
        Out.show(objects[0]);
        Out.show(objects[1]);
        Out.show(objects[2]);
        String[] texts = {"one", null, "two"};
        Object[] wider = texts;
        wider[1] = "new";
        Out.say(texts[1]);
        Out.show(wider);
        Out.show(new Runnable[1]);
        Out.show(new Arrays[1][]);
    }

    private static void tables() {
        int[][] table = new int[3][];
        for (int i = 0; i < table.length; i++) {
            table[i] = new int[i];
            for (int j = 0; j < i; j++) {
                table[i][j] = 10 * i + j;
            }
        }
        table[1] = table[2];
        table[1][1] = -5;
        Out.five(table[0].length, table[1].length, table[2][0], table[2][1], table.length);
        Out.show(table);
        Out.show(table[2]);
        Out.flag(table[1] == table[2]);
        Out.flag(table[0] == table[2]);
    }
}
