package example.hometturi.itctrace;

import example.hometturi.itctrace.Row.Site;
import java.io.File;
import java.io.IOException;
import java.nio.file.FileVisitResult;
import java.nio.file.Files;
import java.nio.file.Path;
import java.nio.file.SimpleFileVisitor;
import java.nio.file.attribute.BasicFileAttributes;
import java.util.ArrayList;
import java.util.LinkedHashSet;
import java.util.List;
import java.util.Map;
import java.util.Set;
import java.util.concurrent.ConcurrentHashMap;
import java.util.regex.Pattern;
import java.util.stream.Stream;

/**
 * Looks whether the source of a line says by a comment that its race is meant. It is looked for in the current folder, and beside and
 * below the folders of the class path.
 */
final class MeantLines {
    private static final Pattern MEANT = Pattern.compile("//\\s*itc:\\s*benign\\b");
    private static final Set<String> PASSED_OVER = Set.of(".git", "node_modules", "target", "build");
    /** So many files below one folder are looked through at most. */
    private static final int MOST = 20_000;
    private static final Map<String, List<Path>> FOUND = new ConcurrentHashMap<>();

    private MeantLines() {}

    /** Whether a file that may be the source has the comment on this line. */
    static boolean has(Site site) {
        return site.file() != null && FOUND.computeIfAbsent(site.file(), MeantLines::find).stream().anyMatch(path -> isMeant(path, site.line()));
    }

    private static boolean isMeant(Path path, int line) {
        try (Stream<String> lines = Files.lines(path)) {
            return lines.skip(Math.max(0, line - 1)).findFirst().filter(text -> MEANT.matcher(text).find()).isPresent();
        } catch (IOException | RuntimeException unreadable) {
            return false;
        }
    }

    private static List<Path> find(String file) {
        List<Path> found = new ArrayList<>();
        for (Path folder : folders()) {
            try {
                Files.walkFileTree(folder, new Looking(file, found));
            } catch (IOException | RuntimeException unreadable) {
                continue;
            }
        }
        return found;
    }

    private static Set<Path> folders() {
        Set<Path> folders = new LinkedHashSet<>(Set.of(Path.of("").toAbsolutePath()));
        for (String entry : System.getProperty("java.class.path", "").split(File.pathSeparator)) {
            Path path = Path.of(entry).toAbsolutePath();
            if (Files.isDirectory(path) && path.getParent() != null) {
                folders.add(path.getParent());
            }
        }
        return folders;
    }

    /** Goes through a folder, and gathers the files whose paths end so. */
    private static final class Looking extends SimpleFileVisitor<Path> {
        private final String file;
        private final List<Path> found;
        private int left = MOST;

        Looking(String file, List<Path> found) {
            this.file = file;
            this.found = found;
        }

        @Override
        public FileVisitResult preVisitDirectory(Path folder, BasicFileAttributes of) {
            boolean isPassedOver = folder.getFileName() != null && PASSED_OVER.contains(folder.getFileName().toString());
            return isPassedOver ? FileVisitResult.SKIP_SUBTREE : FileVisitResult.CONTINUE;
        }

        @Override
        public FileVisitResult visitFile(Path path, BasicFileAttributes of) {
            if (path.endsWith(file)) {
                found.add(path);
            }
            return --left > 0 ? FileVisitResult.CONTINUE : FileVisitResult.TERMINATE;
        }

        @Override
        public FileVisitResult visitFileFailed(Path path, IOException failure) {
            return FileVisitResult.CONTINUE;
        }
    }
}
