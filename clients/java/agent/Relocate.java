import java.io.IOException;
import java.io.InputStream;
import java.io.UncheckedIOException;
import java.nio.file.Files;
import java.nio.file.Path;
import java.util.List;
import java.util.stream.Stream;
import java.util.zip.ZipEntry;
import java.util.zip.ZipFile;
import org.objectweb.asm.ClassReader;
import org.objectweb.asm.ClassWriter;
import org.objectweb.asm.commons.ClassRemapper;
import org.objectweb.asm.commons.Remapper;

/** Writes ASM, and the classes that use it, with ASM in a package of the agent's own: {@code Relocate FOLDER JAR..}. */
public final class Relocate {
    private static final String FROM = "org/objectweb/asm/";
    private static final String TO = "example/hometturi/itctrace/asm/";
    private static final Remapper NAMES =
            new Remapper() {
                @Override
                public String map(String name) {
                    return name.startsWith(FROM) ? TO + name.substring(FROM.length()) : name;
                }
            };

    private Relocate() {}

    public static void main(String[] words) throws IOException {
        Path folder = Path.of(words[0]);
        List<Path> own;
        try (Stream<Path> files = Files.walk(folder)) {
            own = files.filter(file -> file.toString().endsWith(".class")).toList();
        }
        for (Path file : own) {
            Files.write(file, relocated(Files.readAllBytes(file)));
        }
        for (String jar : List.of(words).subList(1, words.length)) {
            try (ZipFile archive = new ZipFile(jar)) {
                archive.stream().filter(entry -> entry.getName().startsWith(FROM)).forEach(entry -> write(archive, entry, folder));
            }
        }
    }

    private static void write(ZipFile archive, ZipEntry entry, Path folder) {
        if (!entry.getName().endsWith(".class")) {
            return;
        }
        Path file = folder.resolve(NAMES.map(entry.getName()));
        try (InputStream bytes = archive.getInputStream(entry)) {
            Files.createDirectories(file.getParent());
            Files.write(file, relocated(bytes.readAllBytes()));
        } catch (IOException failure) {
            throw new UncheckedIOException(failure);
        }
    }

    private static byte[] relocated(byte[] bytes) {
        ClassWriter writer = new ClassWriter(0);
        new ClassReader(bytes).accept(new ClassRemapper(writer, NAMES), 0);
        return writer.toByteArray();
    }
}
