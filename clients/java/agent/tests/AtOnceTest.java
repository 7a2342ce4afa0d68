import java.util.concurrent.CyclicBarrier;
import java.util.concurrent.TimeUnit;
import org.junit.jupiter.api.Test;
import org.junit.jupiter.api.parallel.Execution;
import org.junit.jupiter.api.parallel.ExecutionMode;

/** Tests of JUnit 5 that run at the same time. clients/watched_tests.py runs them. */
@Execution(ExecutionMode.CONCURRENT)
class AtOnceTest {
    private static final CyclicBarrier MEETING = new CyclicBarrier(2);
    private static int ofBoth;
    private int own;

    private void meet() throws Exception {
        MEETING.await(60, TimeUnit.SECONDS);
    }

    private static void both(Runnable body) throws InterruptedException {
        Thread alice = new Thread(body, "alice");
        Thread bob = new Thread(body, "bob");
        alice.start();
        bob.start();
        alice.join();
        bob.join();
    }

    @Test
    void raced() throws Exception {
        meet();
        both(() -> own++); // race: AtOnceTest.raced()
        ofBoth++; // race of both: AtOnceTest.raced() AtOnceTest.guarded()
        meet();
    }

    @Test
    void guarded() throws Exception {
        meet();
        both(this::count);
        ofBoth++; // race of both: AtOnceTest.raced() AtOnceTest.guarded()
        meet();
    }

    private synchronized void count() {
        own++;
    }
}
