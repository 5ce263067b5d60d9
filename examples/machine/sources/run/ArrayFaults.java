package run;

import api.Out;

/** What arrays throw, and which of two faults comes first. */
public final class ArrayFaults {
    public static void main(String[] words) {
        int[] ints = new int[2];
        for (int index : new int[] {-2147483648, -1, 0, 1, 2, 2147483647}) {
            read(ints, index);
            write(ints, index);
        }
        read(null, 0);
        write(null, 9);
        sizes();
        kinds();
        stores(new String[1], 0, "text");
        stores(new String[1], 0, new int[1]);
        stores(new String[1], 1, new int[1]);
        stores(new String[1], 0, null);
        stores(null, 5, "text");
        stores(new Object[1], 0, new int[1]);
        stores(new Object[1][], 0, new String[1]);
        stores(new Object[1][], 0, new int[1]);
        stores(new Object[1][], 0, new int[1][]);
        stores(new Object[1][], 0, "text");
        stores(new int[1][], 0, new short[1]);
        stores(new Runnable[1], 0, new Thread());
        stores(new Runnable[1], 0, "text");
        stores(new Thread[1], 0, Thread.class);
        stores(new Class[1], 0, Thread.class);
    }

    private static void read(int[] ints, int index) {
        try {
            Out.put(ints[index]);
        } catch (RuntimeException e) {
            Out.show(e);
        }
    }

    private static void write(int[] ints, int index) {
        try {
            ints[index] = index;
            Out.put(ints[index]);
        } catch (RuntimeException e) {
            Out.show(e);
        }
    }

    private static void sizes() {
        for (int size : new int[] {-1, -2147483648, 0, 1}) {
            try {
                Out.put(new int[size].length);
                Out.put(new Object[size].length);
            } catch (NegativeArraySizeException e) {
                Out.show(e);
            }
            try {
                Out.put(new String[size][].length);
            } catch (RuntimeException e) {
                Out.show(e);
            }
        }
    }

    private static void kinds() {
        byte[] bytes = null;
        char[] chars = {};
        short[] shorts = {1};
        boolean[] truths = {true};
        try {
            bytes[0] = 1;
        } catch (NullPointerException e) {
            Out.show(e);
        }
        try {
            chars[0]++;
        } catch (ArrayIndexOutOfBoundsException e) {
            Out.show(e);
        }
        try {
            Out.put(shorts[shorts[0]]);
        } catch (IndexOutOfBoundsException e) {
            Out.show(e);
        }
        try {
            truths[-1] = false;
        } catch (Exception e) {
            Out.show(e);
        }
        try {
            Out.put(bytes.length);
        } catch (Throwable e) {
            Out.show(e);
        }
    }

    private static void stores(Object[] items, int index, Object item) {
        try {
            items[index] = item;
            Out.show(items[index]);
        } catch (RuntimeException e) {
            Out.show(e);
        }
    }
}
