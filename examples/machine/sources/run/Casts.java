package run;

import api.Box;
import api.In;
import api.Kept;
import api.Out;

/** Of which classes, interfaces and arrays objects are. */
public final class Casts {
    interface Shape {}

    interface Solid extends Shape {}

    static class Point {}

    static class Dot extends Point implements Solid {}

    static class Small extends Dot implements Runnable {
        public void run() {}
    }

    public static void main(String[] words) {
        Object[] objects = {
            null, new Object(), new Point(), new Dot(), new Small(), "text", Point.class, new Thread(), new Exception(),
            In.make(), In.lid(), new int[1], new byte[1], new boolean[1], new int[1][], new Object[1], new String[1],
            new Point[1], new Dot[1], new Small[1][], new Shape[1], new Solid[1], new Thread[1]
        };
        for (Object object : objects) {
            Out.show(object);
            tell(object);
            tellArrays(object);
            cast(object);
        }
    }

    private static void put(boolean... are) {
        int bits = 0;
        for (boolean is : are) {
            bits = 2 * bits + (is ? 1 : 0);
        }
        Out.put(bits);
    }

    private static void tell(Object o) {
        put(o instanceof Object, o instanceof Point, o instanceof Dot, o instanceof Small, o instanceof String);
        put(o instanceof Shape, o instanceof Solid, o instanceof Runnable, o instanceof Thread, o instanceof Class);
        put(o instanceof Box, o instanceof Kept, o instanceof Throwable, o instanceof RuntimeException);
    }

    private static void tellArrays(Object o) {
        put(o instanceof int[], o instanceof byte[], o instanceof boolean[], o instanceof int[][], o instanceof Object[]);
        put(o instanceof String[], o instanceof Point[], o instanceof Dot[], o instanceof Shape[], o instanceof Solid[]);
        put(o instanceof Runnable[], o instanceof Object[][], o instanceof Runnable[][], o instanceof Shape[][], o instanceof Thread[]);
    }

    private static void cast(Object o) {
        try {
            Out.show((Point) o);
            Out.show((Solid) o);
            Out.show((Runnable) o);
        } catch (ClassCastException e) {
            Out.show(e);
        }
        try {
            Object[] items = (Object[]) o;
            Out.put(items == null ? -1 : items.length);
            Shape[] shapes = (Shape[]) o;
            Out.put(shapes == null ? -1 : shapes.length);
        } catch (RuntimeException e) {
            Out.show(e);
        }
    }
}
