package example.hometturi.itctrace.agent;

import java.io.IOException;
import java.lang.instrument.Instrumentation;
import java.net.URISyntaxException;
import java.nio.file.Path;
import java.util.jar.JarFile;

/** Hands the agent's jar to the loader of the JDK's own classes, which call the agent, too. Nothing else of the agent is named here. */
public final class Premain {
    private Premain() {}

    public static void premain(String options, Instrumentation instrumentation) {
        try {
            if (Premain.class.getClassLoader() != null) { // The jar is not called as its manifest says.
                Path jar = Path.of(Premain.class.getProtectionDomain().getCodeSource().getLocation().toURI());
                instrumentation.appendToBootstrapClassLoaderSearch(new JarFile(jar.toFile()));
            }
            Class<?> agent = Class.forName("example.hometturi.itctrace.agent.Agent", true, null);
            agent.getMethod("begin", String.class, Instrumentation.class).invoke(null, options, instrumentation);
        } catch (IOException | URISyntaxException | ReflectiveOperationException failure) {
            System.err.println("itc_trace: nothing is watched: " + failure);
        }
    }
}
