import java.io.BufferedReader;
import java.io.File;
import java.io.IOException;
import java.io.InputStreamReader;
import java.nio.file.Files;
import java.util.HashMap;
import java.util.Map;

/** Reads folders of class files, one a line, and prints for each whether Java verifies all of their classes. */
class Verifier extends ClassLoader {
    private final Map<String, byte[]> files = new HashMap<>();

    Verifier(File folder) throws IOException {
        for (File file : folder.listFiles()) {
            String name = file.getName();
            files.put(name.substring(0, name.length() - ".class".length()), Files.readAllBytes(file.toPath()));
        }
    }

    @Override protected Class<?> findClass(String name) throws ClassNotFoundException {
        byte[] bytes = files.get(name);
        if (bytes == null) throw new ClassNotFoundException(name);
        return defineClass(name, bytes, 0, bytes.length);
    }

    /** What Java says of the classes: to list the methods of a class links and so verifies it, and doesn't run it. */
    String verdict() {
        try {
            for (String name : files.keySet()) loadClass(name).getDeclaredMethods();
            return "safe";
        } catch (VerifyError e) {
            return "unsafe";
        } catch (LinkageError | ClassNotFoundException e) {
            return "other";
        }
    }

    public static void main(String[] arguments) throws IOException {
        BufferedReader lines = new BufferedReader(new InputStreamReader(System.in));
        for (String line; (line = lines.readLine()) != null; ) System.out.println(new Verifier(new File(line)).verdict());
    }
}
