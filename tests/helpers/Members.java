import java.io.BufferedReader;
import java.io.InputStreamReader;
import java.net.URL;
import java.net.URLClassLoader;
import java.nio.file.Paths;

/**
 * Runs many programs in one Java machine, each with a class loader of its own. A line of the input is the folder of a program,
 * whose main class is `a.Main`; for each a line is printed, the number that it gave to the library, or what went wrong.
 */
public class Members {
    public static void main(String[] words) throws Exception {
        BufferedReader folders = new BufferedReader(new InputStreamReader(System.in));
        for (String folder = folders.readLine(); folder != null; folder = folders.readLine()) {
            api.Net.last = "nothing";
            URL[] place = {Paths.get(folder).toUri().toURL()};
            try (URLClassLoader loader = new URLClassLoader(place, Members.class.getClassLoader())) {
                loader.loadClass("a.Main").getMethod("main", String[].class).invoke(null, (Object) new String[0]);
                System.out.println(api.Net.last);
            } catch (ReflectiveOperationException | LinkageError fault) {
                System.out.println(fault);
            }
        }
    }
}
