package conspec.run;

import java.lang.invoke.MethodHandle;
import java.lang.invoke.MethodHandles;
import java.lang.reflect.Method;
import java.nio.charset.StandardCharsets;
import java.nio.file.Files;
import java.nio.file.Path;
import java.nio.file.Paths;
import java.util.Arrays;

/**
 * Runs the main method of a class, and writes who ended the Java machine: the class, the method and the line that called
 * System.exit. Nothing is written where the Java machine ends otherwise. The words are the file to write, the class, and its words.
 */
public final class Launcher extends Thread {
    private final Path file;

    private Launcher(Path file) {
        this.file = file;
    }

    public static void main(String[] words) throws Throwable {
        Class<?> named = Class.forName(words[1], false, ClassLoader.getSystemClassLoader());
        Method method = named.getMethod("main", String[].class);
        method.setAccessible(true);
        MethodHandle main = MethodHandles.lookup().unreflect(method);
        Runtime.getRuntime().addShutdownHook(new Launcher(Paths.get(words[0])));
        main.invokeExact(Arrays.copyOfRange(words, 2, words.length));
    }

    /** Runs while the Java machine ends: of the threads one has begun that, and waits for it. */
    @Override
    public void run() {
        for (StackTraceElement[] frames : Thread.getAllStackTraces().values()) {
            int at = 0;
            boolean ends = false;
            while (at < frames.length && !isMethod(frames[at], "java.lang.System", "exit")) {
                ends |= isMethod(frames[at], "java.lang.Shutdown", "runHooks");
                at++;
            }
            if (ends && at + 1 < frames.length) {
                write(frames[at + 1]);
            }
        }
    }

    private static boolean isMethod(StackTraceElement frame, String owner, String name) {
        return frame.getClassName().equals(owner) && frame.getMethodName().equals(name);
    }

    private void write(StackTraceElement frame) {
        String text = frame.getClassName() + "\n" + frame.getMethodName() + "\n" + frame.getLineNumber() + "\n";
        try {
            Files.write(file, text.getBytes(StandardCharsets.UTF_8));
        } catch (java.io.IOException fault) {
            // then nothing is told of the stop
            return;
        }
    }
}
