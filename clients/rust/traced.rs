//! What a program marks, and how its trace begins and ends.

use crate::ending;
use crate::environment::{Environment, JOURNAL};
use crate::journal::{HeldLock, LockName, Site};
use crate::line::Touch;
use crate::place::{Gives, Kind, Mark, Noted, Place};
use crate::sites;
use crate::tracer::{Task, Tracer, END, MAIN};
use std::cell::{Cell, RefCell};
use std::collections::BTreeMap;
use std::ffi::OsStr;
use std::panic::Location;
use std::path::Path;
use std::process::Command;
use std::ptr;
use std::sync::atomic::{AtomicBool, AtomicU8, Ordering};
use std::sync::{Arc, Mutex, MutexGuard, OnceLock, PoisonError, Weak};

/// The header of HTTP that carries a message.
pub const HEADER: &str = "Itc-Trace";

static TRACER: OnceLock<Option<Arc<Tracer>>> = OnceLock::new();

/// What a thread knows of itself.
struct Thread {
    /// Where its task is.
    here: RefCell<Weak<Place>>,
    /// What it has noted there last, of locks.
    noted: Cell<Option<(u64, usize, Kind)>>,
    held: RefCell<Vec<HeldLock>>,
    /// The locks that are held, each with one that was acquired before it and released since.
    outlived: RefCell<Vec<(u64, u64)>>,
    has_outlived: Cell<bool>,
    /// The last place of another task that its task has come after, and by what.
    taken: RefCell<(Weak<Place>, Kind)>,
    /// Where it has released the lock that it has acquired last, if it does nothing else but to release it again.
    own: Cell<Option<Arc<Place>>>,
}

impl Thread {
    const fn new() -> Thread {
        Thread {
            here: RefCell::new(Weak::new()),
            noted: Cell::new(None),
            held: RefCell::new(Vec::new()),
            outlived: RefCell::new(Vec::new()),
            has_outlived: Cell::new(false),
            taken: RefCell::new((Weak::new(), Kind::Meant)),
            own: Cell::new(None),
        }
    }

    /// It is another task from now on.
    fn forget(&self) {
        self.here.replace(Weak::new());
        self.noted.set(None);
        self.taken.replace((Weak::new(), Kind::Meant));
        self.own.set(None);
    }
}

thread_local! {
    static CURRENT: Cell<Option<Task>> = const { Cell::new(None) };
    static ENDS: Ends = const { Ends(Cell::new(None)) };
    static THREAD: Thread = const { Thread::new() };
}

/// The task that ends with this thread, behind all that is local to it, and who is told of that.
struct Ends(Cell<Option<(Task, Done)>>);

impl Drop for Ends {
    fn drop(&mut self) {
        if let Some((task, done)) = self.0.take() {
            end(task, &done);
            CURRENT.set(None);
        }
    }
}

/// The end of a task's body, for those who only look whether it is over.
pub(crate) type Done = Arc<OnceLock<Mark>>;

/// The trace of this process. It goes on up to the end of the process, whatever becomes of this.
#[derive(Debug)]
pub struct Trace(());

/// Begins to report where the environment says. If it names no port, nothing is reported. The first call of anything else of this crate
/// does the same.
///
/// The trace ends with the process: behind `main`, by [`std::process::exit`], or by a signal that ends it. It may end before, as when it
/// is full. Then one line on standard error says so, and the program goes on.
pub fn begin() -> Trace {
    on();
    Trace(())
}

/// Reports all that was noted by now, as if the process ended here. What is done from here on is reported as it is done.
///
/// A program needs this before it ends in a way that nobody can see, as by `_exit` of the C library or by SIGKILL.
pub fn finish() {
    if let Some(tracer) = begun() {
        tracer.finish(false);
    }
}

fn start() -> Option<Arc<Tracer>> {
    match Environment::read().and_then(|read| read.map(|read| Tracer::new(&read)).transpose()) {
        Ok(tracer) => {
            if tracer.is_some() {
                ending::watch();
            }
            tracer
        }
        Err(fault) => {
            eprintln!("itc_trace: nothing is traced: {fault}");
            None
        }
    }
}

/// The process ends.
pub(crate) fn end_of_process() {
    if let Some(tracer) = begun() {
        tracer.finish(true);
    }
}

/// Who reports, if there is a trace.
pub(crate) fn begun() -> Option<&'static Tracer> {
    TRACER.get()?.as_deref()
}

/// Who has it stops all others from marking a place.
#[cfg(test)]
pub(crate) static MARKING: std::sync::RwLock<()> = std::sync::RwLock::new(());

/// Whether there is a trace that goes on.
static STAGE: AtomicU8 = AtomicU8::new(UNKNOWN);
const UNKNOWN: u8 = 0;
const ON: u8 = 1;
const OFF: u8 = 2;

/// Who reports, if there is a trace that goes on.
#[inline]
pub(crate) fn on() -> Option<&'static Tracer> {
    match STAGE.load(Ordering::Relaxed) {
        OFF => None,
        ON => TRACER.get()?.as_deref(),
        _ => begin_now(),
    }
}

/// Whether there may be a trace, which [`on`] knows.
#[inline(always)]
pub(crate) fn may_be_on() -> bool {
    STAGE.load(Ordering::Relaxed) != OFF
}

#[cold]
fn begin_now() -> Option<&'static Tracer> {
    let tracer = TRACER.get_or_init(start).as_deref().filter(|tracer| !tracer.is_over());
    let _ = STAGE.compare_exchange(UNKNOWN, if tracer.is_some() { ON } else { OFF }, Ordering::Relaxed, Ordering::Relaxed);
    tracer
}

/// Nothing is reported any more.
pub(crate) fn is_over() {
    STAGE.store(OFF, Ordering::Relaxed);
}

/// This thread reads or writes the thing, which is of this process, at the line that calls this.
#[track_caller]
pub fn touch(thing: &str, writes: bool) {
    touched(thing, writes, false, Location::caller());
}

/// The same of a thing that all processes call by this name, as a file.
#[track_caller]
pub fn touch_across(thing: &str, writes: bool) {
    touched(thing, writes, true, Location::caller());
}

fn touched(thing: &str, writes: bool, is_across: bool, site: &'static Location<'static>) {
    if let Some(tracer) = on() {
        let (task, held) = (current(tracer), held());
        let touch = Touch::new(writes, is_across, Some(site), &held);
        is_at(&tracer.touch(task, thing, &touch, Some(site), sites::function_at(site), &held));
    }
}

/// The name of a new message from here, if there is a trace: hand it to another process, which calls [`incoming`] with it.
#[track_caller]
pub fn outgoing() -> Option<String> {
    let site = Some(Location::caller());
    let tracer = on()?;
    let message = tracer.outgoing(current(tracer), site);
    is_somewhere(tracer);
    message
}

/// From now on this thread comes after the place where the message was sent. What is no message is passed over.
#[track_caller]
pub fn incoming(message: &str) {
    receive(message, Some(Location::caller()));
}

pub(crate) fn receive(message: &str, site: Site) {
    let is_name = (1..=24).contains(&message.len()) && message.bytes().all(|next| next.is_ascii_alphanumeric() || next == b'_');
    if let Some(tracer) = on().filter(|_| is_name) {
        is_at(&tracer.incoming(current(tracer), message, site));
    }
}

/// The task of this thread, which is about to do something.
#[inline]
pub(crate) fn current(tracer: &Tracer) -> Task {
    let _ = THREAD.try_with(|thread| thread.own.set(None));
    task_now(tracer)
}

/// The task of this thread.
#[inline]
fn task_now(tracer: &Tracer) -> Task {
    CURRENT.get().unwrap_or_else(|| begin_thread(tracer))
}

/// The task of a thread that nobody was seen to start. It ends with the thread.
#[cold]
fn begin_thread(tracer: &Tracer) -> Task {
    let thread = std::thread::current();
    let task = match thread.name() {
        Some("main") => MAIN,
        name => {
            let task = tracer.stranger(name.unwrap_or("thread"));
            let _ = ENDS.try_with(|ends| ends.0.set(Some((task, Done::default()))));
            task
        }
    };
    CURRENT.set(Some(task));
    task
}

/// This thread's task is at the place now.
fn is_at(place: &Arc<Place>) {
    let _ = THREAD.try_with(|thread| {
        if thread.here.borrow().as_ptr() != Arc::as_ptr(place) {
            thread.here.replace(Arc::downgrade(place));
            thread.noted.set(None);
        }
    });
}

fn is_somewhere(tracer: &Tracer) -> Arc<Place> {
    let place = tracer.here(current(tracer));
    is_at(&place);
    place
}

/// Where this thread's task is.
#[inline]
fn here(tracer: &Tracer) -> Arc<Place> {
    let known = THREAD.try_with(|thread| thread.here.borrow().upgrade());
    known.ok().flatten().unwrap_or_else(|| is_somewhere(tracer))
}

fn held() -> Vec<LockName> {
    THREAD.try_with(|thread| thread.held.borrow().iter().map(|one| one.lock).collect()).unwrap_or_default()
}

/// This thread holds the lock from now on. If it has waited for it with others held, that is told.
#[inline]
pub(crate) fn hold(tracer: &Tracer, lock: HeldLock, has_waited: bool) {
    let is_nested = THREAD.try_with(|thread| {
        let mut held = thread.held.borrow_mut();
        held.push(lock);
        has_waited && held.len() > 1
    });
    if is_nested.unwrap_or_default() {
        acquired_nested(tracer);
    }
}

/// Two locks may be a lock of readers: one of them has the other acquired, is released, and is acquired once more to release that. Readers
/// do not wait for each other by that.
#[cold]
fn acquired_nested(tracer: &Tracer) {
    let held = THREAD.try_with(Thread::awaited).unwrap_or_default();
    if let Some(site) = held.last().filter(|_| held.len() > 1).and_then(|wanted| wanted.at) {
        is_at(&tracer.acquire(current(tracer), held, sites::function_at(site)));
    }
}

/// The place where a lock was released.
pub(crate) struct Release {
    pub place: Arc<Place>,
    site: Site,
    kind: Kind,
}

impl Release {
    /// This thread acquires the lock, and comes after whoever has released it. Its own place stays for the next release.
    #[inline]
    pub fn take_away(self, tracer: &Tracer, lock: LockName, site: Site) {
        if self.place.task == task_now(tracer) {
            let _ = THREAD.try_with(|thread| thread.own.set(Some(self.place)));
        } else {
            take_by(tracer, &self.mark(lock), site);
        }
    }

    /// This thread acquires the lock, and comes after whoever has released it.
    #[inline]
    pub fn take_by(&self, tracer: &Tracer, lock: LockName, site: Site) {
        if self.place.task != task_now(tracer) {
            take_by(tracer, &self.mark(lock), site);
        }
    }

    pub fn mark(&self, lock: LockName) -> Mark {
        let gives = Gives::by(self.kind, lock);
        let noted = self.place.slot(self.kind).noted_as(Noted { gives, site: self.site, time: None });
        Mark { place: self.place.clone(), noted }
    }

    pub fn of(mark: Mark) -> Release {
        Release { place: mark.place, site: mark.noted.site, kind: mark.noted.gives.kind() }
    }
}

/// This thread releases the lock here. If it has noted the same lock at the same place before, nobody asks for the time again.
#[inline]
pub(crate) fn release_lock(tracer: &Tracer, lock: LockName, is_guard: &AtomicBool, site: Site) -> Option<Release> {
    release_again(tracer, lock, is_guard, site, ptr::null())
}

/// The same for the time of a wait. Then it acquires the lock again for what it has held all along, so none outlives it.
pub(crate) fn lend_lock(tracer: &Tracer, lock: LockName, is_guard: &AtomicBool, site: Site) -> Option<Release> {
    let lent = release_lock(tracer, lock, is_guard, site);
    let _ = THREAD.try_with(|thread| {
        let mut outlived = thread.outlived.borrow_mut();
        outlived.retain(|(_, released)| *released != lock.number);
        thread.has_outlived.set(!outlived.is_empty());
    });
    lent
}

/// The same as of a release, but none if this thread has released the lock at the known place already, and has done nothing since.
#[inline]
pub(crate) fn release_again(tracer: &Tracer, lock: LockName, is_guard: &AtomicBool, site: Site, known: *const Place) -> Option<Release> {
    #[cfg(test)]
    let _marking = MARKING.read();
    THREAD.try_with(|thread| thread.release(tracer, lock, is_guard, site, known)).unwrap_or_else(|_| {
        let (place, noted) = (tracer.here(current(tracer)), Noted::now(Gives::by(kind_of(is_guard), lock), site));
        place.slot(noted.gives.kind()).note(noted);
        Some(Release { place, site, kind: noted.gives.kind() })
    })
}

#[inline]
pub(crate) fn kind_of(is_guard: &AtomicBool) -> Kind {
    if is_guard.load(Ordering::Relaxed) {
        Kind::Guard
    } else {
        Kind::Luck
    }
}

impl Thread {
    /// The thread no longer holds the lock. Gives whether it still holds one that it acquired later.
    #[inline]
    fn let_go(&self, lock: u64) -> bool {
        let mut held = self.held.borrow_mut();
        if self.has_outlived.get() || !held.last().is_some_and(|last| last.lock.number == lock) {
            return self.let_go_of(&mut held, lock);
        }
        held.pop();
        false
    }

    /// The same where it is not the last lock that the thread holds, or where some have outlived others.
    #[cold]
    fn let_go_of(&self, held: &mut Vec<HeldLock>, lock: u64) -> bool {
        let mut outlived = self.outlived.borrow_mut();
        outlived.retain(|(later, _)| *later != lock);
        let place = held.iter().rposition(|other| other.lock.number == lock);
        if let Some(place) = place {
            held.remove(place);
            outlived.extend(held[place..].iter().map(|later| (later.lock.number, lock)));
        }
        self.has_outlived.set(!outlived.is_empty());
        place.is_some_and(|place| place < held.len())
    }

    /// The lock that is held last, behind those that it was waited for with.
    fn awaited(&self) -> Vec<HeldLock> {
        let (held, outlived) = (self.held.borrow(), self.outlived.borrow());
        let Some(wanted) = held.last().map(|last| last.lock.number) else { return Vec::new() };
        held.iter().filter(|one| !outlived.contains(&(one.lock.number, wanted))).copied().collect()
    }

    #[inline]
    fn release(&self, tracer: &Tracer, lock: LockName, is_guard: &AtomicBool, site: Site, known: *const Place) -> Option<Release> {
        if self.let_go(lock.number) {
            is_guard.store(true, Ordering::Relaxed); // One that was acquired later stays, as in a lock made of two.
        }
        let kind = kind_of(is_guard);
        let key = Some((lock.number, site.map_or(0, |site| site as *const _ as usize), kind));
        if self.noted.get() == key && !known.is_null() && self.here.borrow().as_ptr() == known {
            return None;
        }
        let own = self.own.take().filter(|own| Arc::as_ptr(own) == self.here.borrow().as_ptr());
        let here = own.or_else(|| self.here.borrow().upgrade());
        let place = here.unwrap_or_else(|| is_somewhere(tracer));
        if self.noted.get() != key {
            self.noted.set(key);
            place.slot(kind).note(Noted::now(Gives::by(kind, lock), site));
        }
        Some(Release { place, site, kind })
    }
}

/// A place in this thread that somebody may come after.
pub(crate) fn mark(gives: Gives, site: Site) -> Option<Mark> {
    #[cfg(test)]
    let _marking = MARKING.read();
    let tracer = on()?;
    let (place, noted) = (here(tracer), Noted::now(gives, site));
    place.slot(gives.kind()).note(noted);
    Some(Mark { place, noted })
}

/// This thread comes after the place.
pub(crate) fn take(mark: Option<&Mark>, site: Site) {
    if let (Some(tracer), Some(mark)) = (on(), mark) {
        take_by(tracer, mark, site);
    }
}

#[inline]
pub(crate) fn take_by(tracer: &Tracer, mark: &Mark, site: Site) {
    let task = current(tracer);
    if mark.place.task != task && !has_taken(mark) {
        if let Some(place) = tracer.take(task, mark, site) {
            is_at(&place);
        }
        let taken = (Arc::downgrade(&mark.place), mark.noted.gives.kind());
        let _ = THREAD.try_with(|thread| thread.taken.replace(taken));
    }
}

/// Whether this is what the thread has come after last.
fn has_taken(mark: &Mark) -> bool {
    let is_last = |thread: &Thread| {
        let taken = thread.taken.borrow();
        taken.0.as_ptr() == Arc::as_ptr(&mark.place) && taken.1 == mark.noted.gives.kind()
    };
    THREAD.try_with(is_last).unwrap_or(false)
}

/// Whether the place is the one that this thread has come after last, by this kind of order or by one that is meant more.
#[inline]
pub(crate) fn has_come_after(place: *const Place, kind: Kind) -> bool {
    let is_last = |thread: &Thread| {
        let taken = thread.taken.borrow();
        taken.0.as_ptr() == place && taken.1 <= kind
    };
    THREAD.try_with(is_last).unwrap_or(false)
}

/// This thread knows all that was done up to the place of a lock's release.
pub(crate) fn comes_after(release: &Release) {
    let taken = (Arc::downgrade(&release.place), release.kind);
    let _ = THREAD.try_with(|thread| thread.taken.replace(taken));
}

/// From so many marks of tasks on, it is looked which of the tasks have ended.
pub(crate) const MANY_MARKS: usize = 64;

/// A task of the tracer that comes after tasks which have ended. So one mark stands for those of all of them.
#[derive(Debug, Default)]
pub(crate) struct Keeper(Option<Task>);

impl Keeper {
    pub const fn new() -> Keeper {
        Keeper(None)
    }

    pub fn is(&self, task: Task) -> bool {
        self.0 == Some(task)
    }

    /// Comes after all of these. Gives the mark for that.
    pub fn keep(&mut self, tracer: &Tracer, marks: impl Iterator<Item = Mark>, gives: Gives) -> Mark {
        let keeper = *self.0.get_or_insert_with(|| tracer.stranger("keeper"));
        marks.for_each(|mark| drop(tracer.take(keeper, &mark, None)));
        let (place, noted) = (tracer.here(keeper), Noted::now(gives, None));
        place.slot(gives.kind()).note(noted);
        Mark { place, noted }
    }
}

impl Drop for Keeper {
    fn drop(&mut self) {
        end_of(self.0);
    }
}

/// The marks of some tasks, of each the last one.
#[derive(Debug, Default)]
pub(crate) struct Marks {
    by_task: BTreeMap<Task, Mark>,
    swept: usize,
    keeper: Keeper,
}

impl Marks {
    pub const fn new() -> Marks {
        Marks { by_task: BTreeMap::new(), swept: 0, keeper: Keeper::new() }
    }

    pub fn put(&mut self, tracer: &Tracer, mark: Mark) {
        let gives = mark.noted.gives;
        self.by_task.insert(mark.place.task, mark);
        if self.by_task.len() > 2 * self.swept + MANY_MARKS {
            self.sweep(tracer, gives);
        }
    }

    fn sweep(&mut self, tracer: &Tracer, gives: Gives) {
        let ended = tracer.ended(self.by_task.keys().copied().filter(|task| !self.keeper.is(*task)));
        if !ended.is_empty() {
            let marks = ended.iter().filter_map(|task| self.by_task.remove(task));
            let kept = self.keeper.keep(tracer, marks, gives);
            self.by_task.insert(kept.place.task, kept);
        }
        self.swept = self.by_task.len();
    }

    pub fn take(&self, tracer: &Tracer, site: Site) {
        self.by_task.values().for_each(|mark| take_by(tracer, mark, site));
    }

    pub fn clear(&mut self) {
        *self = Marks::new();
    }
}

/// What somebody may come after, of each task at most one place. Whoever comes, comes after all of them.
#[derive(Debug, Default)]
pub(crate) struct Givers(Mutex<Marks>);

impl Givers {
    pub const fn new() -> Givers {
        Givers(Mutex::new(Marks::new()))
    }

    fn marks(&self) -> MutexGuard<'_, Marks> {
        self.0.lock().unwrap_or_else(PoisonError::into_inner)
    }

    /// Whoever comes from now on, comes after this place too. A later place of a task stands for its earlier ones.
    pub fn give(&self, gives: Gives, site: Site) {
        if let (Some(mark), Some(tracer)) = (mark(gives, site), on()) {
            self.marks().put(tracer, mark);
        }
    }

    pub fn take(&self, site: Site) {
        if let Some(tracer) = on() {
            self.marks().take(tracer, site);
        }
    }

    /// Takes all, and forgets them.
    pub fn take_away(&self, site: Site) {
        let marks = std::mem::take(&mut *self.marks());
        if let Some(tracer) = on() {
            marks.take(tracer, site);
        }
    }

    /// Does this while nobody else gives or takes.
    pub fn with<T>(&self, body: impl FnOnce(&mut Marks) -> T) -> T {
        body(&mut self.marks())
    }
}

pub(crate) fn spawn(hint: &str, site: Site) -> Option<Task> {
    let tracer = on()?;
    let (child, place) = tracer.spawn(current(tracer), hint, site);
    is_at(&place);
    Some(child)
}

pub(crate) fn join(child: Option<Task>, site: Site) {
    if let (Some(tracer), Some(child)) = (on(), child) {
        is_at(&tracer.join(current(tracer), child, site));
    }
}

/// Nobody can wait for the task any more.
pub(crate) fn forget(task: Option<Task>) {
    if let (Some(tracer), Some(task)) = (on(), task) {
        tracer.forget(task);
    }
}

fn end(task: Task, done: &Done) {
    if let Some(tracer) = on() {
        tracer.end(task);
        if Arc::strong_count(done) == 1 {
            tracer.forget(task);
        }
    }
}

/// Has this thread be the task up to its end, behind all that is local to it. Then the task ends.
pub(crate) fn run_thread<T>(task: Option<Task>, done: Done, body: impl FnOnce() -> T) -> T {
    if let Some(task) = task {
        CURRENT.set(Some(task));
        let kept = done.clone();
        ENDS.with(|ends| ends.0.set(Some((task, kept)))); // What is local to the thread and made later is dropped before.
        THREAD.with(|_| ());
    }
    let _marking = Marking(done);
    body()
}

/// Tells those who look whether a body is over, also if it panics.
struct Marking(Done);

impl Drop for Marking {
    fn drop(&mut self) {
        if let Some(mark) = mark(Gives::Order(&END), None) {
            let _ = self.0.set(mark);
        }
    }
}

/// Does this as the task, which ends with it, also by a panic. Then this thread is the task before again.
pub(crate) fn run<T>(task: Option<Task>, done: &Done, body: impl FnOnce() -> T) -> T {
    let _ending = Ending { task, done, before: CURRENT.replace(task) };
    let _ = THREAD.try_with(Thread::forget);
    body()
}

struct Ending<'a> {
    task: Option<Task>,
    done: &'a Done,
    before: Option<Task>,
}

impl Drop for Ending<'_> {
    fn drop(&mut self) {
        if let Some(task) = self.task {
            if let Some(mark) = mark(Gives::Order(&END), None) {
                let _ = self.done.set(mark);
            }
            end(task, self.done);
        }
        CURRENT.set(self.before);
        let _ = THREAD.try_with(Thread::forget);
    }
}

/// Does this as the task that it is of, and no longer. The task goes on later.
pub(crate) fn run_as<T>(task: Option<Task>, body: impl FnOnce() -> T) -> T {
    let _back = Back(CURRENT.replace(task.or(CURRENT.get())));
    let _ = THREAD.try_with(Thread::forget);
    body()
}

struct Back(Option<Task>);

impl Drop for Back {
    fn drop(&mut self) {
        CURRENT.set(self.0);
        let _ = THREAD.try_with(Thread::forget);
    }
}

/// A task that was run in pieces is over. Nobody waits for it by its task.
pub(crate) fn end_of(task: Option<Task>) {
    if let (Some(tracer), Some(task)) = (on(), task) {
        tracer.end(task);
        tracer.forget(task);
    }
}

/// Starts the task of a process, and tells the process so by its environment. Gives the task.
pub(crate) fn begin_child(command: &mut Command, site: Site) -> Option<String> {
    let tracer = on()?;
    let hint = Path::new(command.get_program()).file_stem().map_or("process".into(), OsStr::to_string_lossy).into_owned();
    let (child, journal) = tracer.begin_child(current(tracer), &hint, site)?;
    is_somewhere(tracer);
    let (name, told) = child.variable();
    command.env(name, told).env(JOURNAL, journal);
    Some(child.task)
}

/// This thread has seen that the child process is over.
pub(crate) fn join_process(child: Option<String>, site: Site) {
    if let (Some(tracer), Some(child)) = (on(), child) {
        is_at(&tracer.join_process(current(tracer), &child, site));
    }
}
