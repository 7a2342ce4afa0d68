package example.hometturi.itctrace;

/**
 * A request of another process that this thread answers, as a task of its own. It comes after the place where the request was sent. To
 * close it ends the task, and this thread goes on as the task that it was.
 *
 * <pre>{@code
 * try (TracedRequest traced = Traced.request(request.getHeader(Traced.HEADER))) {
 *     answer(request, response);
 * }
 * }</pre>
 */
public final class TracedRequest implements AutoCloseable {
    private final Task task;
    private final Task before;
    private boolean isClosed;

    TracedRequest(Task task) {
        this.task = task;
        before = Traced.become(task);
    }

    @Override
    public void close() {
        if (!isClosed) {
            isClosed = true;
            Traced.endUnawaited(task, before);
        }
    }
}
