//! What is done once. Whoever sees that it is done comes after it.

use crate::journal::Site;
use crate::place::{Gives, Mark, What};
use crate::traced::{mark, take};
use std::fmt::{self, Debug};
use std::ops::Deref;
use std::panic::{Location, RefUnwindSafe, UnwindSafe};
use std::sync::{self, Mutex, OnceState, PoisonError};

static DONE: What = What::new("once", "do once", "see it done");

/// Does something once.
pub struct Once {
    once: sync::Once,
    done: sync::OnceLock<Mark>,
}

impl Once {
    /// Nothing is done yet.
    #[must_use]
    pub const fn new() -> Once {
        Once { once: sync::Once::new(), done: sync::OnceLock::new() }
    }

    /// Does it, if nobody has, else waits for whoever does.
    #[track_caller]
    pub fn call_once<F: FnOnce()>(&self, body: F) {
        let site = Some(Location::caller());
        self.once.call_once(|| {
            body();
            self.is_done(site);
        });
        take(self.done.get(), site);
    }

    /// The same, also if whoever did it before has panicked.
    #[track_caller]
    pub fn call_once_force<F: FnOnce(&OnceState)>(&self, body: F) {
        let site = Some(Location::caller());
        self.once.call_once_force(|state| {
            body(state);
            self.is_done(site);
        });
        take(self.done.get(), site);
    }

    /// Whether it is done.
    #[track_caller]
    pub fn is_completed(&self) -> bool {
        let is_completed = self.once.is_completed();
        if is_completed {
            take(self.done.get(), Some(Location::caller()));
        }
        is_completed
    }

    fn is_done(&self, site: Site) {
        if let Some(mark) = mark(Gives::Order(&DONE), site) {
            let _ = self.done.set(mark);
        }
    }
}

impl Default for Once {
    fn default() -> Once {
        Once::new()
    }
}

impl Debug for Once {
    fn fmt(&self, f: &mut fmt::Formatter<'_>) -> fmt::Result {
        self.once.fmt(f)
    }
}

/// A value, and the place where it was made.
#[derive(Clone)]
struct Made<T> {
    value: T,
    mark: Option<Mark>,
}

impl<T> Made<T> {
    fn new(value: T, site: Site) -> Made<T> {
        Made { value, mark: mark(Gives::Order(&DONE), site) }
    }

    fn seen(&self, site: Site) -> &T {
        take(self.mark.as_ref(), site);
        &self.value
    }
}

/// A value that is written once.
pub struct OnceLock<T> {
    lock: sync::OnceLock<Made<T>>,
}

impl<T> OnceLock<T> {
    /// Nothing is written yet.
    #[must_use]
    pub const fn new() -> OnceLock<T> {
        OnceLock { lock: sync::OnceLock::new() }
    }

    /// The value, if it is there.
    #[track_caller]
    pub fn get(&self) -> Option<&T> {
        let site = Some(Location::caller());
        self.lock.get().map(|made| made.seen(site))
    }

    /// The value, if it is there, which nobody else has.
    #[track_caller]
    pub fn get_mut(&mut self) -> Option<&mut T> {
        let site = Some(Location::caller());
        self.lock.get_mut().map(|made| {
            take(made.mark.as_ref(), site);
            &mut made.value
        })
    }

    /// Writes it, if it is not there.
    #[track_caller]
    pub fn set(&self, value: T) -> Result<(), T> {
        let site = Some(Location::caller());
        let mut value = Some(value);
        self.lock.get_or_init(|| Made::new(value.take().expect("it is written once"), site));
        match value {
            None => Ok(()),
            Some(value) => Err(value),
        }
    }

    /// The value, which is made if it is not there.
    #[track_caller]
    pub fn get_or_init<F: FnOnce() -> T>(&self, make: F) -> &T {
        let site = Some(Location::caller());
        self.lock.get_or_init(|| Made::new(make(), site)).seen(site)
    }

    /// The value, if it was there.
    #[track_caller]
    pub fn into_inner(self) -> Option<T> {
        let site = Some(Location::caller());
        self.lock.into_inner().map(|made| {
            take(made.mark.as_ref(), site);
            made.value
        })
    }

    /// Takes the value away.
    #[track_caller]
    pub fn take(&mut self) -> Option<T> {
        std::mem::take(self).into_inner()
    }
}

impl<T> Default for OnceLock<T> {
    fn default() -> OnceLock<T> {
        OnceLock::new()
    }
}

impl<T: Debug> Debug for OnceLock<T> {
    fn fmt(&self, f: &mut fmt::Formatter<'_>) -> fmt::Result {
        let mut told = f.debug_tuple("OnceLock");
        match self.lock.get() {
            Some(made) => told.field(&made.value),
            None => told.field(&format_args!("<uninit>")),
        };
        told.finish()
    }
}

impl<T: Clone> Clone for OnceLock<T> {
    #[track_caller]
    fn clone(&self) -> OnceLock<T> {
        let copy = OnceLock::new();
        if let Some(value) = self.get() {
            let _ = copy.set(value.clone());
        }
        copy
    }
}

impl<T> From<T> for OnceLock<T> {
    #[track_caller]
    fn from(value: T) -> OnceLock<T> {
        let made = OnceLock::new();
        let _ = made.set(value);
        made
    }
}

impl<T: PartialEq> PartialEq for OnceLock<T> {
    fn eq(&self, other: &OnceLock<T>) -> bool {
        self.get() == other.get()
    }
}

impl<T: Eq> Eq for OnceLock<T> {}

/// A value that is made when it is first looked at.
pub struct LazyLock<T, F = fn() -> T> {
    lock: OnceLock<T>,
    make: Mutex<Option<F>>,
}

impl<T: UnwindSafe, F: UnwindSafe> UnwindSafe for LazyLock<T, F> {}
impl<T: RefUnwindSafe + UnwindSafe, F: UnwindSafe> RefUnwindSafe for LazyLock<T, F> {}

impl<T, F: FnOnce() -> T> LazyLock<T, F> {
    /// The value that this makes.
    pub const fn new(make: F) -> LazyLock<T, F> {
        LazyLock { lock: OnceLock::new(), make: Mutex::new(Some(make)) }
    }

    /// The value, which is made if it is not there.
    #[track_caller]
    pub fn force(this: &LazyLock<T, F>) -> &T {
        this.lock.get_or_init(|| {
            let make = this.make.lock().unwrap_or_else(PoisonError::into_inner).take();
            make.expect("LazyLock instance has previously been poisoned")()
        })
    }
}

impl<T, F: FnOnce() -> T> Deref for LazyLock<T, F> {
    type Target = T;

    #[track_caller]
    fn deref(&self) -> &T {
        LazyLock::force(self)
    }
}

impl<T: Default> Default for LazyLock<T> {
    fn default() -> LazyLock<T> {
        LazyLock::new(T::default)
    }
}

impl<T: Debug, F> Debug for LazyLock<T, F> {
    fn fmt(&self, f: &mut fmt::Formatter<'_>) -> fmt::Result {
        let mut told = f.debug_tuple("LazyLock");
        match self.lock.lock.get() {
            Some(made) => told.field(&made.value),
            None => told.field(&format_args!("<uninit>")),
        };
        told.finish()
    }
}
