import static org.junit.jupiter.api.Assertions.assertTrue;

import org.junit.jupiter.api.BeforeEach;
import org.junit.jupiter.api.Nested;
import org.junit.jupiter.api.Test;
import org.junit.jupiter.api.TestMethodOrder;
import org.junit.jupiter.api.MethodOrderer.MethodName;
import org.junit.jupiter.params.ParameterizedTest;
import org.junit.jupiter.params.provider.ValueSource;

/** Tests of JUnit 5, some of which have a race. clients/watched_tests.py runs them. */
@TestMethodOrder(MethodName.class)
class ShopTest {
    private static int all;
    private int left;
    private int right;

    @BeforeEach
    void fill() {
        left = 2;
        all++;
    }

    private static void both(Runnable body) throws InterruptedException {
        Thread alice = new Thread(body, "alice");
        Thread bob = new Thread(body, "bob");
        alice.start();
        bob.start();
        alice.join();
        bob.join();
    }

    @Test
    void holdsALock() throws InterruptedException {
        both(this::sellLocked);
        all++;
    }

    private synchronized void sellLocked() {
        left--;
    }

    @Test
    void sells() throws InterruptedException {
        both(() -> left--); // race: ShopTest.sells()
        assertTrue(left < 2);
        all++;
    }

    private void sellTwice() throws InterruptedException {
        both(() -> left -= 2); // race: ShopTest.sellsMore() ShopTest.sellsMost()
    }

    @Test
    void sellsMore() throws InterruptedException {
        sellTwice();
        all++;
    }

    @Test
    void sellsMost() throws InterruptedException {
        sellTwice();
        all++;
    }

    @Test
    void sellsAndThrows() throws InterruptedException {
        both(() -> left--); // race: ShopTest.sellsAndThrows()
        all++;
        throw new IllegalStateException("thrown by the test");
    }

    @Test
    void sellsByLuck() throws InterruptedException {
        Thread alice = new Thread(() -> sellBefore(), "alice");
        Thread bob = new Thread(() -> sellBehind(alice), "bob");
        alice.start();
        bob.start();
        bob.join();
        alice.join();
        all++;
    }

    private void sellBefore() {
        left--; // possible: ShopTest.sellsByLuck()
        synchronized (this) {
            right++;
        }
    }

    private void sellBehind(Thread alice) {
        while (alice.getState() != Thread.State.TERMINATED) {
            Thread.onSpinWait();
        }
        synchronized (this) {
            right++;
        }
        left--; // possible: ShopTest.sellsByLuck()
    }

    @Test
    void sellsAsMeant() throws InterruptedException {
        both(() -> left--); // itc: benign
        all++;
    }

    @ParameterizedTest
    @ValueSource(ints = {1, 2})
    void sellsSome(int count) throws InterruptedException {
        if (count == 2) {
            both(() -> right += count); // race: ShopTest.sellsSome(int).#2
        }
        all++;
    }

    @Nested
    class Inner {
        private int sold;

        @Test
        void counts() throws InterruptedException {
            both(() -> sold++); // race: ShopTest.Inner.counts()
            all++;
        }
    }
}
