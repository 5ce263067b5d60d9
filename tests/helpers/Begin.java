import java.lang.reflect.InvocationTargetException;

/**
 * Runs a program on the Java machine as `replay` does: the words are its classes, which begin in this order, and the last of
 * them is the one whose `main` is called then. What is printed after the program's own lines is the end; where the program
 * was stopped nothing is, and the exit value tells with what.
 */
public class Begin {
    public static void main(String[] words) throws Throwable {
        Thread.setDefaultUncaughtExceptionHandler((thread, thrown) -> {
            if (!(thrown instanceof Exception)) {
                thrown.printStackTrace();
            }
        });
        try {
            Class<?> last = null;
            for (String word : words) {
                last = Class.forName(word);
            }
            last.getMethod("main", String[].class).invoke(null, (Object) new String[0]);
        } catch (ExceptionInInitializerError | InvocationTargetException ended) {
            if (!(ended.getCause() instanceof Exception)) {
                throw ended;
            }
        }
        System.out.println("end finished");
    }
}
