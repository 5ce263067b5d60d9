package api;

import java.io.ByteArrayOutputStream;
import java.io.DataOutputStream;
import java.io.IOException;
import java.util.IdentityHashMap;
import java.util.Map;

/**
 * Prints what happens at the methods of this library, as the lines of a record: the call, the answer, and how the call ended.
 * Objects are numbered as they are met, for a Java machine tells no place on its heap; and so are threads.
 */
final class Trace {
    private static final Map<Object, Integer> OBJECTS = new IdentityHashMap<>();
    private static final Map<Thread, Integer> THREADS = new IdentityHashMap<>();

    private Trace() {}

    static void call(String method, Object... arguments) {
        StringBuilder line = new StringBuilder(method);
        for (Object argument : arguments) {
            line.append(' ').append(shown(argument));
        }
        print("call", line.toString());
    }

    static void done(String method) {
        print("answer", "nothing");
        print("return", method);
    }

    static int gives(String method, int number) {
        print("answer", "int " + number);
        print("return", method + " " + number);
        return number;
    }

    /** An answer that is no number, by its words. */
    static <T> T gives(String method, String answer, T object) {
        print("answer", answer);
        print("return", method + " " + shown(object));
        return object;
    }

    /** An answer that is a new text; it is no literal of a class. */
    static String text(String method, String text) {
        String digits = hex(text);
        return gives(method, "text " + (digits.isEmpty() ? "-" : digits), new String(text));
    }

    static <T extends Throwable> T thrown(String method, T thrown) {
        print("answer", "throws " + name(thrown.getClass()));
        print("except", method);
        return thrown;
    }

    private static void print(String word, String rest) {
        System.out.println(word + " " + number(THREADS, Thread.currentThread()) + " " + rest);
    }

    private static synchronized <T> int number(Map<T, Integer> met, T one) {
        Integer number = met.putIfAbsent(one, met.size());
        return number == null ? met.size() - 1 : number;
    }

    private static String name(Class<?> of) {
        return of.getName().replace('.', '/');
    }

    private static String shown(Object object) {
        if (object == null) {
            return "null";
        }
        if (object instanceof Integer) {
            return object.toString();
        }
        if (object instanceof String) {
            String digits = hex((String) object);
            return "text:" + (digits.isEmpty() ? "-" : digits);
        }
        if (object instanceof Class) {
            return "class:" + name((Class<?>) object);
        }
        return "obj:" + name(object.getClass()) + "@" + number(OBJECTS, object);
    }

    /** The bytes of a text as class files have them, two digits each. */
    private static String hex(String text) {
        ByteArrayOutputStream bytes = new ByteArrayOutputStream();
        try {
            new DataOutputStream(bytes).writeUTF(text);
        } catch (IOException e) {
            throw new IllegalStateException(e);
        }
        StringBuilder digits = new StringBuilder();
        byte[] written = bytes.toByteArray();
        for (int at = 2; at < written.length; at++) {
            digits.append(String.format("%02x", written[at]));
        }
        return digits.toString();
    }
}
