//! Threads whose start and end are reported, used as those of the standard library.

use crate::journal::Site;
use crate::place::{Gives, What};
use crate::traced::{self, Done, Givers};
use crate::tracer::Task;
use std::collections::HashMap;
use std::fmt::{self, Debug};
use std::io;
use std::panic::Location;
use std::sync::{Mutex, MutexGuard, OnceLock, PoisonError};
use std::thread;
use std::time::Duration;

pub use std::thread::{available_parallelism, panicking, sleep, yield_now, AccessError, LocalKey, Result, ThreadId};

static UNPARK: What = What::new("unpark", "unpark", "leave park");

/// Who has unparked a thread that has not left its park yet.
static UNPARKED: OnceLock<Mutex<HashMap<ThreadId, Givers>>> = OnceLock::new();

fn unparked() -> MutexGuard<'static, HashMap<ThreadId, Givers>> {
    UNPARKED.get_or_init(Mutex::default).lock().unwrap_or_else(PoisonError::into_inner)
}

/// A thread, as it is known to others.
#[derive(Clone)]
pub struct Thread(thread::Thread);

impl Thread {
    /// What tells it from others.
    pub fn id(&self) -> ThreadId {
        self.0.id()
    }

    /// What it is called.
    pub fn name(&self) -> Option<&str> {
        self.0.name()
    }

    /// Lets it leave its park, behind all that this thread did before.
    #[track_caller]
    pub fn unpark(&self) {
        if traced::on().is_some() {
            unparked().entry(self.id()).or_default().give(Gives::Order(&UNPARK), Some(Location::caller()));
        }
        self.0.unpark();
    }
}

impl Debug for Thread {
    fn fmt(&self, f: &mut fmt::Formatter<'_>) -> fmt::Result {
        self.0.fmt(f)
    }
}

/// This thread.
pub fn current() -> Thread {
    Thread(thread::current())
}

/// Waits until somebody unparks this thread.
#[track_caller]
pub fn park() {
    let site = Some(Location::caller());
    thread::park();
    has_left_park(site);
}

/// The same, for at most so long.
#[track_caller]
pub fn park_timeout(time: Duration) {
    let site = Some(Location::caller());
    thread::park_timeout(time);
    has_left_park(site);
}

fn has_left_park(site: Site) {
    if traced::on().is_some() {
        let givers = unparked().remove(&thread::current().id());
        if let Some(givers) = givers {
            givers.take(site);
        }
    }
}

/// Waits for a thread, and comes after its end then.
pub struct JoinHandle<T> {
    handle: Option<thread::JoinHandle<T>>,
    thread: Thread,
    task: Option<Task>,
    done: Done,
}

impl<T> JoinHandle<T> {
    fn new(handle: thread::JoinHandle<T>, task: Option<Task>, done: Done) -> JoinHandle<T> {
        JoinHandle { thread: Thread(handle.thread().clone()), handle: Some(handle), task, done }
    }

    /// Waits for the end of the thread.
    ///
    /// # Errors
    ///
    /// What the thread has panicked with.
    ///
    /// # Panics
    ///
    /// Never: a handle is joined once.
    #[track_caller]
    pub fn join(mut self) -> Result<T> {
        let value = self.handle.take().expect("a handle is joined once").join();
        self.done = Done::default(); // Nobody else looks whether the thread is over.
        traced::join(self.task.take(), Some(Location::caller()));
        value
    }

    /// Whether its body is over. Whoever sees that comes after it.
    #[track_caller]
    pub fn is_finished(&self) -> bool {
        is_over(self.handle.as_ref().is_some_and(thread::JoinHandle::is_finished), &self.done, Some(Location::caller()))
    }

    /// The thread itself.
    pub fn thread(&self) -> &Thread {
        &self.thread
    }
}

impl<T> Drop for JoinHandle<T> {
    fn drop(&mut self) {
        self.done = Done::default();
        traced::forget(self.task);
    }
}

impl<T> Debug for JoinHandle<T> {
    fn fmt(&self, f: &mut fmt::Formatter<'_>) -> fmt::Result {
        f.debug_struct("JoinHandle").finish_non_exhaustive()
    }
}

fn is_over(is_finished: bool, done: &Done, site: Site) -> bool {
    if is_finished {
        traced::take(done.get(), site);
    }
    is_finished
}

/// Starts a thread.
///
/// # Panics
///
/// If the system can start no thread.
#[track_caller]
pub fn spawn<F, T>(body: F) -> JoinHandle<T>
where
    F: FnOnce() -> T + Send + 'static,
    T: Send + 'static,
{
    Builder::new().spawn(body).expect("failed to spawn thread")
}

/// Starts a thread of this name.
///
/// # Errors
///
/// If the system can start no thread.
#[track_caller]
pub fn spawn_named<F, T>(name: &str, body: F) -> io::Result<JoinHandle<T>>
where
    F: FnOnce() -> T + Send + 'static,
    T: Send + 'static,
{
    Builder::new().name(name.into()).spawn(body)
}

/// A thread that is about to be started.
#[derive(Debug)]
#[must_use = "must eventually spawn the thread"]
pub struct Builder {
    builder: thread::Builder,
    name: Option<String>,
}

impl Default for Builder {
    fn default() -> Builder {
        Builder::new()
    }
}

impl Builder {
    /// A thread without a name.
    pub fn new() -> Builder {
        Builder { builder: thread::Builder::new(), name: None }
    }

    /// What it is called.
    pub fn name(self, name: String) -> Builder {
        Builder { builder: self.builder.name(name.clone()), name: Some(name) }
    }

    /// How many bytes its stack has.
    pub fn stack_size(self, size: usize) -> Builder {
        Builder { builder: self.builder.stack_size(size), ..self }
    }

    fn task(&self, hint: &str, site: Site) -> Option<Task> {
        traced::spawn(self.name.as_deref().unwrap_or(hint), site)
    }

    /// Starts it.
    ///
    /// # Errors
    ///
    /// If the system can start no thread.
    #[track_caller]
    pub fn spawn<F, T>(self, body: F) -> io::Result<JoinHandle<T>>
    where
        F: FnOnce() -> T + Send + 'static,
        T: Send + 'static,
    {
        let (task, done) = (self.task("thread", Some(Location::caller())), Done::default());
        let told = done.clone();
        let handle = self.builder.spawn(move || traced::run_thread(task, told, body))?;
        Ok(JoinHandle::new(handle, task, done))
    }

    /// Starts it in a scope.
    ///
    /// # Errors
    ///
    /// If the system can start no thread.
    #[track_caller]
    pub fn spawn_scoped<'scope, 'env, F, T>(self, scope: &'scope Scope<'scope, 'env>, body: F) -> io::Result<ScopedJoinHandle<'scope, T>>
    where
        F: FnOnce() -> T + Send + 'scope,
        T: Send + 'scope,
    {
        let (task, done) = (self.task("scoped", Some(Location::caller())), Done::default());
        scope.add(task, &done);
        let told = done.clone();
        let handle = self.builder.spawn_scoped(&scope.scope, move || traced::run(task, &told, body))?;
        Ok(ScopedJoinHandle { thread: Thread(handle.thread().clone()), handle, done })
    }
}

/// A scope whose threads may borrow. Whoever leaves it comes after the end of all of them.
#[repr(transparent)]
pub struct Scope<'scope, 'env: 'scope> {
    scope: thread::Scope<'scope, 'env>,
}

/// The threads that were started in each scope, by where that is in memory.
static STARTED: Mutex<Option<Started>> = Mutex::new(None);

type Started = HashMap<usize, Vec<(Task, Done)>>;

fn started<T>(look: impl FnOnce(&mut Started) -> T) -> T {
    look(STARTED.lock().unwrap_or_else(PoisonError::into_inner).get_or_insert_with(HashMap::new))
}

/// Waits for a thread of a scope, and comes after its end then.
pub struct ScopedJoinHandle<'scope, T> {
    handle: thread::ScopedJoinHandle<'scope, T>,
    thread: Thread,
    done: Done,
}

impl<T> ScopedJoinHandle<'_, T> {
    /// Waits for the end of the thread.
    ///
    /// # Errors
    ///
    /// What the thread has panicked with.
    #[track_caller]
    pub fn join(self) -> Result<T> {
        let value = self.handle.join();
        traced::take(self.done.get(), Some(Location::caller()));
        value
    }

    /// Whether its body is over. Whoever sees that comes after it.
    #[track_caller]
    pub fn is_finished(&self) -> bool {
        is_over(self.handle.is_finished(), &self.done, Some(Location::caller()))
    }

    /// The thread itself.
    pub fn thread(&self) -> &Thread {
        &self.thread
    }
}

impl<T> Debug for ScopedJoinHandle<'_, T> {
    fn fmt(&self, f: &mut fmt::Formatter<'_>) -> fmt::Result {
        f.debug_struct("ScopedJoinHandle").finish_non_exhaustive()
    }
}

impl Debug for Scope<'_, '_> {
    fn fmt(&self, f: &mut fmt::Formatter<'_>) -> fmt::Result {
        f.debug_struct("Scope").finish_non_exhaustive()
    }
}

impl<'scope, 'env> Scope<'scope, 'env> {
    /// Starts a thread of the scope.
    ///
    /// # Panics
    ///
    /// If the system can start no thread.
    #[track_caller]
    pub fn spawn<F, T>(&'scope self, body: F) -> ScopedJoinHandle<'scope, T>
    where
        F: FnOnce() -> T + Send + 'scope,
        T: Send + 'scope,
    {
        Builder::new().spawn_scoped(self, body).expect("failed to spawn thread")
    }

    fn place(&self) -> usize {
        self as *const Scope<'_, '_> as usize
    }

    fn add(&self, task: Option<Task>, done: &Done) {
        if let Some(task) = task {
            started(|started| started.entry(self.place()).or_default().push((task, done.clone())));
        }
    }
}

/// Makes a scope, and waits for all of its threads.
#[track_caller]
pub fn scope<'env, F, T>(body: F) -> T
where
    F: for<'scope> FnOnce(&'scope Scope<'scope, 'env>) -> T,
{
    let site: Site = Some(Location::caller());
    let place = OnceLock::new();
    let joining = Joining { place: &place, site };
    let value = thread::scope(|scope| {
        // SAFETY: a Scope is a scope of the standard library and nothing else, with the same layout.
        let scope = unsafe { &*(scope as *const thread::Scope<'_, 'env>).cast::<Scope<'_, 'env>>() };
        let _ = place.set(scope.place());
        body(scope)
    });
    drop(joining);
    value
}

/// Comes after the threads of a scope, also if one of them has panicked.
struct Joining<'a> {
    place: &'a OnceLock<usize>,
    site: Site,
}

impl Drop for Joining<'_> {
    fn drop(&mut self) {
        let ended = self.place.get().and_then(|place| started(|started| started.remove(place)));
        for (task, done) in ended.into_iter().flatten() {
            drop(done);
            traced::join(Some(task), self.site);
        }
    }
}
