package example.hometturi.itctrace;

import java.util.concurrent.locks.Lock;
import java.util.concurrent.locks.ReentrantReadWriteLock.ReadLock;
import java.util.concurrent.locks.ReentrantReadWriteLock.WriteLock;
import java.util.concurrent.locks.StampedLock;
import jdk.internal.misc.Unsafe;

/** What the lock of readers, and that of writers, have in common. */
final class Whole {
    private static final Unsafe UNSAFE = Unsafe.getUnsafe();
    private static final long OF_READERS = UNSAFE.objectFieldOffset(ReadLock.class, "sync");
    private static final long OF_WRITERS = UNSAFE.objectFieldOffset(WriteLock.class, "sync");
    private static final Class<?> READ_VIEW = new StampedLock().asReadLock().getClass();
    private static final Class<?> WRITE_VIEW = new StampedLock().asWriteLock().getClass();
    private static final long OF_READ_VIEW = UNSAFE.objectFieldOffset(READ_VIEW, "this$0");
    private static final long OF_WRITE_VIEW = UNSAFE.objectFieldOffset(WRITE_VIEW, "this$0");

    private Whole() {}

    /** Null if the lock is none of those. */
    static Object of(Lock lock) {
        if (lock instanceof ReadLock) {
            return UNSAFE.getReference(lock, OF_READERS);
        }
        if (lock instanceof WriteLock) {
            return UNSAFE.getReference(lock, OF_WRITERS);
        }
        if (READ_VIEW.isInstance(lock)) {
            return UNSAFE.getReference(lock, OF_READ_VIEW);
        }
        return WRITE_VIEW.isInstance(lock) ? UNSAFE.getReference(lock, OF_WRITE_VIEW) : null;
    }

    static boolean isOfWriters(Lock lock) {
        return lock instanceof WriteLock || WRITE_VIEW.isInstance(lock);
    }
}
