package example.hometturi.itctrace;

import example.hometturi.itctrace.Environment.Child;
import java.io.IOException;
import java.io.InputStream;
import java.io.OutputStream;
import java.nio.file.Path;
import java.util.concurrent.CompletableFuture;
import java.util.concurrent.TimeUnit;
import java.util.stream.Stream;

/** A child process. Whoever has waited for it comes after its end. */
final class TracedProcess extends Process {
    private final Process process;
    private Child child;

    private TracedProcess(Process process, Child child) {
        this.process = process;
        this.child = child;
    }

    static Process start(ProcessBuilder builder) throws IOException {
        String command = builder.command().isEmpty() ? "process" : Path.of(builder.command().get(0)).getFileName().toString();
        Child child = Traced.beginChild(builder, command.replaceAll("(?<=.)[.].*", ""));
        Process process = builder.start();
        return child == null ? process : new TracedProcess(process, child);
    }

    private synchronized void isOver() {
        if (child != null) {
            Traced.joinProcess(child, Traced.site());
            child = null;
        }
    }

    @Override
    public int waitFor() throws InterruptedException {
        int status = process.waitFor();
        isOver();
        return status;
    }

    @Override
    public boolean waitFor(long time, TimeUnit unit) throws InterruptedException {
        boolean isOver = process.waitFor(time, unit);
        if (isOver) {
            isOver();
        }
        return isOver;
    }

    @Override
    public int exitValue() {
        int status = process.exitValue();
        isOver();
        return status;
    }

    @Override
    public boolean isAlive() {
        boolean isAlive = process.isAlive();
        if (!isAlive) {
            isOver();
        }
        return isAlive;
    }

    @Override
    public CompletableFuture<Process> onExit() {
        return TracedFuture.following(process.onExit().thenApply(ended -> (Process) this), ended -> isOver());
    }

    @Override
    public OutputStream getOutputStream() {
        return process.getOutputStream();
    }

    @Override
    public InputStream getInputStream() {
        return process.getInputStream();
    }

    @Override
    public InputStream getErrorStream() {
        return process.getErrorStream();
    }

    @Override
    public void destroy() {
        process.destroy();
    }

    @Override
    public Process destroyForcibly() {
        process.destroyForcibly();
        return this;
    }

    @Override
    public boolean supportsNormalTermination() {
        return process.supportsNormalTermination();
    }

    @Override
    public long pid() {
        return process.pid();
    }

    @Override
    public ProcessHandle toHandle() {
        return process.toHandle();
    }

    @Override
    public ProcessHandle.Info info() {
        return process.info();
    }

    @Override
    public Stream<ProcessHandle> children() {
        return process.children();
    }

    @Override
    public Stream<ProcessHandle> descendants() {
        return process.descendants();
    }
}
