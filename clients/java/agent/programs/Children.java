import java.io.IOException;

/** Programs that start another JVM, of which nothing is seen. Each such line says so in a comment, and is named. */
public final class Children {
    private static String java() {
        return System.getProperty("java.home") + "/bin/java";
    }

    static void anotherJvm() throws Exception {
        Process process = start();
        process.waitFor();
    }

    private static Process start() throws IOException {
        return new ProcessBuilder(java(), "-XX:TieredStopAtLevel=1", "-version").start(); // child: anotherJvm
    }

    private Children() {}

    public static void main(String[] words) throws Exception {
        Children.class.getDeclaredMethod(words[0]).invoke(null);
    }
}
