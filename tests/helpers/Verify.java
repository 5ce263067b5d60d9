import java.io.BufferedReader;
import java.io.InputStreamReader;
import java.nio.file.Files;
import java.nio.file.Path;
import java.nio.file.Paths;
import java.util.HashMap;
import java.util.Map;

/**
 * Tells of changed class files whether the Java machine's verifier takes them. The words are the folder of the classes, the
 * folder of the library's classes, and the names of the classes. A line of the input is a class and then, for each byte
 * that is changed, its place and its new value; the line that is printed begins with `typed`, `untyped` or `unlinked`.
 */
public class Verify {
    private static final class Changed extends ClassLoader {
        private final Map<String, byte[]> files;

        Changed(Map<String, byte[]> files) {
            super(Verify.class.getClassLoader());
            this.files = files;
        }

        @Override
        protected Class<?> findClass(String name) throws ClassNotFoundException {
            byte[] file = files.get(name);
            if (file == null) {
                throw new ClassNotFoundException(name);
            }
            return defineClass(name, file, 0, file.length);
        }
    }

    private static String answer(Map<String, byte[]> files, String name) {
        try {
            Class.forName(name, true, new Changed(files));
            return "typed";
        } catch (VerifyError fault) {
            return "untyped " + fault.getMessage().replace('\n', ' ');
        } catch (ExceptionInInitializerError thrown) {
            return "typed";
        } catch (LinkageError | ClassNotFoundException fault) {
            return "unlinked " + fault;
        }
    }

    public static void main(String[] words) throws Exception {
        Map<String, byte[]> files = new HashMap<>();
        for (String library : new String[] {"api/Net", "api/Broken"}) {
            files.put(library.replace('/', '.'), Files.readAllBytes(Paths.get(words[1], library + ".class")));
        }
        for (int i = 2; i < words.length; i++) {
            files.put("demo." + words[i], Files.readAllBytes(Paths.get(words[0], words[i] + ".class")));
        }
        BufferedReader lines = new BufferedReader(new InputStreamReader(System.in));
        for (String line = lines.readLine(); line != null; line = lines.readLine()) {
            String[] parts = line.split(" ");
            String name = "demo." + parts[0];
            Map<String, byte[]> changed = new HashMap<>(files);
            byte[] file = files.get(name).clone();
            for (int i = 1; i < parts.length; i += 2) {
                file[Integer.parseInt(parts[i])] = (byte) Integer.parseInt(parts[i + 1]);
            }
            changed.put(name, file);
            System.out.println(answer(changed, name).split("\n")[0]);
        }
    }
}
