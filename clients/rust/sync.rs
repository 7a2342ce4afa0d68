//! Locks whose order is reported, used as those of the standard library.

mod barrier;
mod once;

pub mod atomic;
pub mod mpsc;
#[cfg(test)]
mod order_tests;

pub use barrier::{Barrier, BarrierWaitResult};
pub use once::{LazyLock, Once, OnceLock};
pub use std::sync::{Arc, LockResult, OnceState, PoisonError, TryLockError, TryLockResult, WaitTimeoutResult, Weak};

use crate::journal::{HeldLock, LockName, Site};
use crate::place::{Gives, Place, What};
use crate::traced::{self, hold, kind_of, lend_lock, may_be_on, on, release_lock, Keeper, Release, MANY_MARKS};
use crate::tracer::{Task, Tracer};
use std::collections::BTreeMap;
use std::fmt::{self, Debug, Display};
use std::ops::{Deref, DerefMut};
use std::panic::Location;
use std::ptr;
use std::sync::atomic::{AtomicBool, AtomicPtr, AtomicU64, Ordering};
use std::sync::{self};
use std::time::{Duration, Instant};

/// What tells a lock from others, and whether its hand-over is meant.
struct Hand {
    made: &'static Location<'static>,
    /// It is 0 up to the first time that the lock is acquired in a trace.
    number: AtomicU64,
    /// Whether others wait for more than the lock, as for a condition. Then its hand-over is meant, and no luck.
    is_guard: AtomicBool,
}

impl Hand {
    #[track_caller]
    const fn new() -> Hand {
        Hand { made: Location::caller(), number: AtomicU64::new(0), is_guard: AtomicBool::new(false) }
    }

    /// Others wait at a condition of this lock from now on, or would have.
    fn mark_guard(&self) {
        self.is_guard.store(true, Ordering::Relaxed);
    }

    #[inline]
    fn name(&self, tracer: &Tracer) -> LockName {
        let number = match self.number.load(Ordering::Relaxed) {
            0 => self.numbered(tracer),
            number => number,
        };
        LockName { number, made: self.made }
    }

    #[cold]
    fn numbered(&self, tracer: &Tracer) -> u64 {
        let fresh = tracer.lock_number();
        self.number.compare_exchange(0, fresh, Ordering::Relaxed, Ordering::Relaxed).map_or_else(|known| known, |_| fresh)
    }

    /// This thread has acquired the lock, which nobody else has now.
    #[inline(never)]
    fn acquired(&self, released: &mut Option<Release>, site: Site, has_waited: bool) {
        if let Some(tracer) = on() {
            let name = self.name(tracer);
            if let Some(release) = released.take() {
                release.take_away(tracer, name, site);
            }
            self.hold(tracer, name, site, false, has_waited);
        }
    }

    /// This thread holds the lock from now on. It has waited for it, if it would have.
    #[inline]
    fn hold(&self, tracer: &Tracer, lock: LockName, site: Site, is_shared: bool, has_waited: bool) {
        hold(tracer, HeldLock { lock, at: site, is_shared }, has_waited);
    }

    /// This thread has what the lock guards, and nobody else has.
    fn taken(&self, released: Option<Release>, site: Site) {
        if let (Some(tracer), Some(release)) = (on(), released) {
            release.take_by(tracer, self.name(tracer), site);
        }
    }

    /// This thread is about to release the lock. Gives the place of that.
    fn releasing(&self, site: Site) -> Option<Release> {
        let tracer = on()?;
        release_lock(tracer, self.name(tracer), &self.is_guard, site)
    }

    /// The same for the time of a wait.
    fn lending(&self, site: Site) -> Option<Release> {
        let tracer = on()?;
        lend_lock(tracer, self.name(tracer), &self.is_guard, site)
    }

    /// The same as of a release, of a lock that one thread alone has.
    #[inline(never)]
    fn released(&self, released: &mut Option<Release>, site: Site) {
        *released = self.releasing(site);
    }
}

/// A value, and the place where the last one who had it has released it.
struct Inner<T: ?Sized> {
    released: Option<Release>,
    value: T,
}

/// A lock whose release comes before the next time that it is acquired.
pub struct Mutex<T: ?Sized> {
    hand: Hand,
    mutex: sync::Mutex<Inner<T>>,
}

/// The lock is released when this is dropped.
#[must_use = "if unused the Mutex will immediately unlock"]
pub struct MutexGuard<'a, T: ?Sized> {
    hand: &'a Hand,
    site: Site,
    guard: Option<sync::MutexGuard<'a, Inner<T>>>,
}

impl<T> Mutex<T> {
    /// A lock that nobody has.
    #[track_caller]
    pub const fn new(value: T) -> Mutex<T> {
        Mutex { hand: Hand::new(), mutex: sync::Mutex::new(Inner { released: None, value }) }
    }

    /// The value. This thread comes after whoever had the lock last.
    #[track_caller]
    pub fn into_inner(self) -> LockResult<T> {
        let site = Some(Location::caller());
        let hand = self.hand;
        let value = |inner: Inner<T>| {
            hand.taken(inner.released, site);
            inner.value
        };
        self.mutex.into_inner().map(value).map_err(|poisoned| PoisonError::new(value(poisoned.into_inner())))
    }
}

impl<T: ?Sized> Mutex<T> {
    /// Waits for the lock.
    #[inline]
    #[track_caller]
    pub fn lock(&self) -> LockResult<MutexGuard<'_, T>> {
        let site = Some(Location::caller());
        match self.mutex.lock() {
            Ok(guard) => Ok(MutexGuard::new(&self.hand, guard, site, true)),
            Err(poisoned) => Err(PoisonError::new(MutexGuard::new(&self.hand, poisoned.into_inner(), site, true))),
        }
    }

    /// The lock, if nobody has it.
    #[track_caller]
    pub fn try_lock(&self) -> TryLockResult<MutexGuard<'_, T>> {
        let site = Some(Location::caller());
        let guarded = |guard| MutexGuard::new(&self.hand, guard, site, false);
        self.mutex.try_lock().map(guarded).map_err(|failed| try_failed(failed, guarded))
    }

    /// Whether a thread has panicked while it held the lock.
    pub fn is_poisoned(&self) -> bool {
        self.mutex.is_poisoned()
    }

    /// Forgets that a thread has panicked while it held the lock.
    pub fn clear_poison(&self) {
        self.mutex.clear_poison();
    }

    /// The value, which nobody else has. This thread comes after whoever had the lock last.
    #[track_caller]
    pub fn get_mut(&mut self) -> LockResult<&mut T> {
        let site = Some(Location::caller());
        let hand = &self.hand;
        let value = |inner: &'_ mut Inner<T>| hand.taken(inner.released.take(), site);
        match self.mutex.get_mut() {
            Ok(inner) => {
                value(inner);
                Ok(&mut inner.value)
            }
            Err(poisoned) => {
                let inner = poisoned.into_inner();
                value(inner);
                Err(PoisonError::new(&mut inner.value))
            }
        }
    }
}

impl<T> From<T> for Mutex<T> {
    #[track_caller]
    fn from(value: T) -> Mutex<T> {
        Mutex::new(value)
    }
}

impl<T: Default> Default for Mutex<T> {
    fn default() -> Mutex<T> {
        Mutex::new(T::default())
    }
}

impl<T: ?Sized + Debug> Debug for Mutex<T> {
    fn fmt(&self, f: &mut fmt::Formatter<'_>) -> fmt::Result {
        let mut told = f.debug_struct("Mutex");
        match self.mutex.try_lock() {
            Ok(guard) => told.field("data", &&guard.value),
            Err(TryLockError::Poisoned(poisoned)) => told.field("data", &&poisoned.into_inner().value),
            Err(TryLockError::WouldBlock) => told.field("data", &format_args!("<locked>")),
        };
        told.field("poisoned", &self.is_poisoned()).finish_non_exhaustive()
    }
}

impl<'a, T: ?Sized> MutexGuard<'a, T> {
    #[inline(always)]
    fn new(hand: &'a Hand, mut guard: sync::MutexGuard<'a, Inner<T>>, site: Site, has_waited: bool) -> MutexGuard<'a, T> {
        if may_be_on() {
            hand.acquired(&mut guard.released, site, has_waited);
        }
        MutexGuard { hand, site, guard: Some(guard) }
    }
}

const HELD: &str = "the guard has its lock up to its end";

impl<T: ?Sized> Deref for MutexGuard<'_, T> {
    type Target = T;

    fn deref(&self) -> &T {
        &self.guard.as_ref().expect(HELD).value
    }
}

impl<T: ?Sized> DerefMut for MutexGuard<'_, T> {
    fn deref_mut(&mut self) -> &mut T {
        &mut self.guard.as_mut().expect(HELD).value
    }
}

impl<T: ?Sized> Drop for MutexGuard<'_, T> {
    #[inline]
    fn drop(&mut self) {
        if let Some(guard) = self.guard.as_mut().filter(|_| may_be_on()) {
            self.hand.released(&mut guard.released, self.site);
        }
    }
}

/// Where a lock with readers was released.
struct Released {
    by_writer: Option<Release>,
    by_readers: Readers,
}

/// Where each task was done reading last. What the last one did is at hand, as it may be the only one.
struct Readers {
    last: Option<Release>,
    others: BTreeMap<Task, Release>,
    swept: usize,
    keeper: Keeper,
}

impl Readers {
    const fn new() -> Readers {
        Readers { last: None, others: BTreeMap::new(), swept: 0, keeper: Keeper::new() }
    }

    fn put(&mut self, tracer: &Tracer, lock: LockName, release: Release) {
        let task = release.place.task;
        if let Some(before) = self.last.replace(release).filter(|before| before.place.task != task) {
            self.others.insert(before.place.task, before);
            self.others.remove(&task);
            if self.others.len() > 2 * self.swept + MANY_MARKS {
                self.sweep(tracer, lock);
            }
        }
    }

    /// One place stands for those of the tasks that have ended.
    fn sweep(&mut self, tracer: &Tracer, lock: LockName) {
        let ended = tracer.ended(self.others.keys().copied().filter(|task| !self.keeper.is(*task)));
        if !ended.is_empty() {
            let marks = ended.iter().filter_map(|task| self.others.remove(task)).map(|release| release.mark(lock));
            let kept = self.keeper.keep(tracer, marks, Gives::Luck(lock));
            self.others.insert(kept.place.task, Release::of(kept));
        }
        self.swept = self.others.len();
    }

    fn take_by(&self, tracer: &Tracer, lock: LockName, site: Site) {
        self.last.iter().chain(self.others.values()).for_each(|release| release.take_by(tracer, lock, site));
    }
}

/// The order of a lock with readers.
struct Order {
    hand: Hand,
    released: sync::Mutex<Released>,
    /// The places of the last writer and of the last reader in `released`, or null. Who has the lock sees by them what it need not look at.
    writer: AtomicPtr<Place>,
    reader: AtomicPtr<Place>,
}

impl Order {
    #[track_caller]
    const fn new() -> Order {
        Order {
            hand: Hand::new(),
            released: sync::Mutex::new(Released { by_writer: None, by_readers: Readers::new() }),
            writer: AtomicPtr::new(ptr::null_mut()),
            reader: AtomicPtr::new(ptr::null_mut()),
        }
    }

    fn released(&self) -> sync::MutexGuard<'_, Released> {
        self.released.lock().unwrap_or_else(PoisonError::into_inner)
    }

    /// This thread comes after all who had the lock.
    fn take_all(&self, site: Site) {
        if let Some(tracer) = on() {
            let (mut released, name) = (self.released(), self.hand.name(tracer));
            self.writer.store(ptr::null_mut(), Ordering::Relaxed);
            self.reader.store(ptr::null_mut(), Ordering::Relaxed);
            released.by_writer.take().into_iter().for_each(|release| release.take_by(tracer, name, site));
            std::mem::replace(&mut released.by_readers, Readers::new()).take_by(tracer, name, site);
        }
    }

    /// This thread reads. It gives a later place when it is done, so what it gave before stays up to then.
    #[inline(never)]
    fn reads(&self, site: Site, has_waited: bool) {
        if let Some(tracer) = on() {
            let (name, writer) = (self.hand.name(tracer), self.writer.load(Ordering::Relaxed));
            if !writer.is_null() && !traced::has_come_after(writer, kind_of(&self.hand.is_guard)) {
                if let Some(release) = &self.released().by_writer {
                    release.take_by(tracer, name, site);
                    traced::comes_after(release);
                }
            }
            self.hand.hold(tracer, name, site, true, has_waited);
        }
    }

    #[inline(never)]
    fn has_read(&self, site: Site) {
        let Some(tracer) = on() else { return };
        let (name, known) = (self.hand.name(tracer), self.reader.load(Ordering::Relaxed));
        if let Some(release) = traced::release_again(tracer, name, &self.hand.is_guard, site, known) {
            let (mut released, place) = (self.released(), Arc::as_ptr(&release.place));
            released.by_readers.put(tracer, name, release);
            self.reader.store(place.cast_mut(), Ordering::Relaxed);
        }
    }

    #[inline(never)]
    fn writes(&self, site: Site, has_waited: bool) {
        if let Some(tracer) = on() {
            self.take_all(site);
            self.hand.hold(tracer, self.hand.name(tracer), site, false, has_waited);
        }
    }

    #[inline(never)]
    fn has_written(&self, site: Site) {
        if let Some(release) = self.hand.releasing(site) {
            self.writer.store(Arc::as_ptr(&release.place).cast_mut(), Ordering::Relaxed);
            self.released().by_writer = Some(release);
        }
    }
}

/// A lock that several threads may read under at once. They come after the last one that wrote, and before the next one.
pub struct RwLock<T: ?Sized> {
    order: Order,
    lock: sync::RwLock<T>,
}

/// The lock is released when this is dropped.
#[must_use = "if unused the RwLock will immediately unlock"]
pub struct RwLockReadGuard<'a, T: ?Sized> {
    order: &'a Order,
    site: Site,
    guard: sync::RwLockReadGuard<'a, T>,
}

/// The lock is released when this is dropped.
#[must_use = "if unused the RwLock will immediately unlock"]
pub struct RwLockWriteGuard<'a, T: ?Sized> {
    order: &'a Order,
    site: Site,
    guard: sync::RwLockWriteGuard<'a, T>,
}

impl<T> RwLock<T> {
    /// A lock that nobody has.
    #[track_caller]
    pub const fn new(value: T) -> RwLock<T> {
        RwLock { order: Order::new(), lock: sync::RwLock::new(value) }
    }

    /// The value. This thread comes after whoever had the lock.
    #[track_caller]
    pub fn into_inner(self) -> LockResult<T> {
        self.order.take_all(Some(Location::caller()));
        self.lock.into_inner()
    }
}

impl<T: ?Sized> RwLock<T> {
    /// Waits until nobody writes.
    #[inline]
    #[track_caller]
    pub fn read(&self) -> LockResult<RwLockReadGuard<'_, T>> {
        let site = Some(Location::caller());
        match self.lock.read() {
            Ok(guard) => Ok(self.guarded_read(guard, site, true)),
            Err(poisoned) => Err(PoisonError::new(self.guarded_read(poisoned.into_inner(), site, true))),
        }
    }

    /// The lock for reading, if nobody writes.
    #[track_caller]
    pub fn try_read(&self) -> TryLockResult<RwLockReadGuard<'_, T>> {
        let site = Some(Location::caller());
        let guarded = |guard| self.guarded_read(guard, site, false);
        self.lock.try_read().map(&guarded).map_err(|failed| try_failed(failed, guarded))
    }

    /// Waits until nobody else has the lock.
    #[inline]
    #[track_caller]
    pub fn write(&self) -> LockResult<RwLockWriteGuard<'_, T>> {
        let site = Some(Location::caller());
        match self.lock.write() {
            Ok(guard) => Ok(self.guarded_write(guard, site, true)),
            Err(poisoned) => Err(PoisonError::new(self.guarded_write(poisoned.into_inner(), site, true))),
        }
    }

    /// The lock for writing, if nobody else has it.
    #[track_caller]
    pub fn try_write(&self) -> TryLockResult<RwLockWriteGuard<'_, T>> {
        let site = Some(Location::caller());
        let guarded = |guard| self.guarded_write(guard, site, false);
        self.lock.try_write().map(&guarded).map_err(|failed| try_failed(failed, guarded))
    }

    /// Whether a thread has panicked while it held the lock for writing.
    pub fn is_poisoned(&self) -> bool {
        self.lock.is_poisoned()
    }

    /// Forgets that a thread has panicked while it held the lock.
    pub fn clear_poison(&self) {
        self.lock.clear_poison();
    }

    /// The value, which nobody else has. This thread comes after whoever had the lock.
    #[track_caller]
    pub fn get_mut(&mut self) -> LockResult<&mut T> {
        self.order.take_all(Some(Location::caller()));
        self.lock.get_mut()
    }

    #[inline(always)]
    fn guarded_read<'a>(&'a self, guard: sync::RwLockReadGuard<'a, T>, site: Site, has_waited: bool) -> RwLockReadGuard<'a, T> {
        if may_be_on() {
            self.order.reads(site, has_waited);
        }
        RwLockReadGuard { order: &self.order, site, guard }
    }

    #[inline(always)]
    fn guarded_write<'a>(&'a self, guard: sync::RwLockWriteGuard<'a, T>, site: Site, has_waited: bool) -> RwLockWriteGuard<'a, T> {
        if may_be_on() {
            self.order.writes(site, has_waited);
        }
        RwLockWriteGuard { order: &self.order, site, guard }
    }
}

impl<T: Default> Default for RwLock<T> {
    #[track_caller]
    fn default() -> RwLock<T> {
        RwLock::new(T::default())
    }
}

impl<T> From<T> for RwLock<T> {
    #[track_caller]
    fn from(value: T) -> RwLock<T> {
        RwLock::new(value)
    }
}

impl<T: ?Sized + Debug> Debug for RwLock<T> {
    fn fmt(&self, f: &mut fmt::Formatter<'_>) -> fmt::Result {
        self.lock.fmt(f)
    }
}

/// The same failure, with the guard of this crate.
fn try_failed<T, U>(failed: TryLockError<T>, guarded: impl Fn(T) -> U) -> TryLockError<U> {
    match failed {
        TryLockError::WouldBlock => TryLockError::WouldBlock,
        TryLockError::Poisoned(poisoned) => TryLockError::Poisoned(PoisonError::new(guarded(poisoned.into_inner()))),
    }
}

impl<T: ?Sized> Deref for RwLockReadGuard<'_, T> {
    type Target = T;

    fn deref(&self) -> &T {
        &self.guard
    }
}

impl<T: ?Sized> Deref for RwLockWriteGuard<'_, T> {
    type Target = T;

    fn deref(&self) -> &T {
        &self.guard
    }
}

impl<T: ?Sized> DerefMut for RwLockWriteGuard<'_, T> {
    fn deref_mut(&mut self) -> &mut T {
        &mut self.guard
    }
}

impl<T: ?Sized> Drop for RwLockReadGuard<'_, T> {
    #[inline]
    fn drop(&mut self) {
        if may_be_on() {
            self.order.has_read(self.site);
        }
    }
}

impl<T: ?Sized> Drop for RwLockWriteGuard<'_, T> {
    #[inline]
    fn drop(&mut self) {
        if may_be_on() {
            self.order.has_written(self.site);
        }
    }
}

impl<T: ?Sized + Debug> Debug for MutexGuard<'_, T> {
    fn fmt(&self, f: &mut fmt::Formatter<'_>) -> fmt::Result {
        (**self).fmt(f)
    }
}

impl<T: ?Sized + Debug> Debug for RwLockReadGuard<'_, T> {
    fn fmt(&self, f: &mut fmt::Formatter<'_>) -> fmt::Result {
        (**self).fmt(f)
    }
}

impl<T: ?Sized + Debug> Debug for RwLockWriteGuard<'_, T> {
    fn fmt(&self, f: &mut fmt::Formatter<'_>) -> fmt::Result {
        (**self).fmt(f)
    }
}

impl<T: ?Sized + Display> Display for MutexGuard<'_, T> {
    fn fmt(&self, f: &mut fmt::Formatter<'_>) -> fmt::Result {
        (**self).fmt(f)
    }
}

impl<T: ?Sized + Display> Display for RwLockReadGuard<'_, T> {
    fn fmt(&self, f: &mut fmt::Formatter<'_>) -> fmt::Result {
        (**self).fmt(f)
    }
}

impl<T: ?Sized + Display> Display for RwLockWriteGuard<'_, T> {
    fn fmt(&self, f: &mut fmt::Formatter<'_>) -> fmt::Result {
        (**self).fmt(f)
    }
}

/// A condition. Whoever waits releases the lock, and acquires it from the one who has notified or from a later one.
#[derive(Debug, Default)]
pub struct Condvar {
    condition: sync::Condvar,
}

impl Condvar {
    /// A condition that nobody waits for.
    pub const fn new() -> Condvar {
        Condvar { condition: sync::Condvar::new() }
    }

    /// Releases the lock, and waits until somebody notifies.
    #[track_caller]
    pub fn wait<'a, T>(&self, guard: MutexGuard<'a, T>) -> LockResult<MutexGuard<'a, T>> {
        let site = Some(Location::caller());
        let (hand, guard) = released(guard, site);
        match self.condition.wait(guard) {
            Ok(guard) => Ok(MutexGuard::new(hand, guard, site, true)),
            Err(poisoned) => Err(PoisonError::new(MutexGuard::new(hand, poisoned.into_inner(), site, true))),
        }
    }

    /// Waits as long as the condition holds.
    #[track_caller]
    pub fn wait_while<'a, T, F>(&self, mut guard: MutexGuard<'a, T>, mut condition: F) -> LockResult<MutexGuard<'a, T>>
    where
        F: FnMut(&mut T) -> bool,
    {
        guard.hand.mark_guard();
        while condition(&mut guard) {
            guard = self.wait(guard)?;
        }
        Ok(guard)
    }

    /// Waits at most so long.
    #[track_caller]
    pub fn wait_timeout<'a, T>(&self, guard: MutexGuard<'a, T>, time: Duration) -> LockResult<(MutexGuard<'a, T>, WaitTimeoutResult)> {
        let site = Some(Location::caller());
        let (hand, guard) = released(guard, site);
        match self.condition.wait_timeout(guard, time) {
            Ok((guard, timeout)) => Ok((MutexGuard::new(hand, guard, site, true), timeout)),
            Err(poisoned) => {
                let (guard, timeout) = poisoned.into_inner();
                Err(PoisonError::new((MutexGuard::new(hand, guard, site, true), timeout)))
            }
        }
    }

    /// Waits as long as the condition holds, and at most so long.
    #[track_caller]
    pub fn wait_timeout_while<'a, T, F>(
        &self,
        mut guard: MutexGuard<'a, T>,
        time: Duration,
        mut condition: F,
    ) -> LockResult<(MutexGuard<'a, T>, WaitTimeoutResult)>
    where
        F: FnMut(&mut T) -> bool,
    {
        guard.hand.mark_guard();
        let begun = Instant::now();
        while condition(&mut guard) {
            let left = time.checked_sub(begun.elapsed()).unwrap_or_default();
            let (next, timeout) = self.wait_timeout(guard, left)?;
            guard = next;
            if left.is_zero() {
                return Ok((guard, timeout));
            }
        }
        let own = guard.guard.take().expect(HELD);
        let waited = self.condition.wait_timeout_while(own, Duration::ZERO, |_| false);
        let (own, timeout) = waited.unwrap_or_else(PoisonError::into_inner);
        guard.guard = Some(own);
        Ok((guard, timeout))
    }

    /// Wakes one who waits.
    pub fn notify_one(&self) {
        self.condition.notify_one();
    }

    /// Wakes all who wait.
    pub fn notify_all(&self) {
        self.condition.notify_all();
    }
}

/// The lock's own guard, behind the report that the lock is released.
fn released<'a, T>(mut guard: MutexGuard<'a, T>, site: Site) -> (&'a Hand, sync::MutexGuard<'a, Inner<T>>) {
    guard.hand.mark_guard();
    let mut own = guard.guard.take().expect(HELD);
    own.released = guard.hand.lending(site);
    (guard.hand, own)
}

/// What is passed by a channel, with the place where it was sent.
static ITEM: What = What::new("item", "send", "receive");
