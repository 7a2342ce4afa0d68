//! Places in the tasks of the program that somebody may come after.

use crate::journal::{self, LockName, Site, Time};
use crate::tracer::Task;
use std::sync::atomic::{AtomicU64, Ordering};
use std::sync::{Arc, Mutex, MutexGuard, OnceLock, PoisonError};

/// What an order is called: its message, its giving and its taking.
#[derive(Debug)]
pub(crate) struct What {
    pub hint: &'static str,
    pub giving: &'static str,
    pub taking: &'static str,
}

impl What {
    pub const fn new(hint: &'static str, giving: &'static str, taking: &'static str) -> What {
        What { hint, giving, taking }
    }
}

/// Whether an order is meant, or a lock's that others wait for, too, or a lock's that only luck hands over.
#[derive(Clone, Copy, Debug, PartialEq, Eq, PartialOrd, Ord)]
pub(crate) enum Kind {
    Meant,
    Guard,
    Luck,
}

/// What gives an order.
#[derive(Clone, Copy, Debug)]
pub(crate) enum Gives {
    /// A lock that only luck hands over.
    Luck(LockName),
    /// A lock for whose hand-over somebody waits.
    Guard(LockName),
    Order(&'static What),
}

impl Gives {
    pub fn by(kind: Kind, lock: LockName) -> Gives {
        if kind == Kind::Luck {
            Gives::Luck(lock)
        } else {
            Gives::Guard(lock)
        }
    }

    pub fn kind(self) -> Kind {
        match self {
            Gives::Luck(_) => Kind::Luck,
            Gives::Guard(_) => Kind::Guard,
            Gives::Order(_) => Kind::Meant,
        }
    }

    /// The lock that a row names.
    pub fn lock(self) -> Option<(Kind, LockName)> {
        match self {
            Gives::Luck(lock) | Gives::Guard(lock) => Some((self.kind(), lock)),
            Gives::Order(_) => None,
        }
    }

    fn lock_number(self) -> Option<u64> {
        self.lock().map(|(_, lock)| lock.number)
    }

    pub fn hint(self) -> String {
        match self {
            Gives::Luck(lock) | Gives::Guard(lock) => format!("lock{}", lock.made.line()),
            Gives::Order(what) => what.hint.into(),
        }
    }

    pub fn giving(self) -> String {
        match self {
            Gives::Luck(lock) | Gives::Guard(lock) => format!("release {}", lock.told()),
            Gives::Order(what) => what.giving.into(),
        }
    }

    pub fn taking(self) -> String {
        match self {
            Gives::Luck(lock) | Gives::Guard(lock) => format!("acquire {}", lock.told()),
            Gives::Order(what) => what.taking.into(),
        }
    }
}

/// What has marked a place last, and where and when.
#[derive(Clone, Copy, Debug)]
pub(crate) struct Noted {
    pub gives: Gives,
    pub site: Site,
    pub time: Time,
}

impl Noted {
    pub fn now(gives: Gives, site: Site) -> Noted {
        Noted { gives, site, time: journal::now() }
    }
}

/// One of the messages that a place may be sent as: of each kind one, so that the order without locks is told in full.
#[derive(Debug, Default)]
pub(crate) struct Slot {
    noted: Mutex<Option<Noted>>,
    message: OnceLock<Message>,
}

/// The messages that nobody can receive any more. The relay of a trace in parts is told so.
#[derive(Debug, Default)]
pub(crate) struct Forgotten(Mutex<Vec<Box<str>>>);

impl Forgotten {
    /// Those since the last time.
    pub fn take(&self) -> Vec<Box<str>> {
        std::mem::take(&mut *self.0.lock().unwrap_or_else(PoisonError::into_inner))
    }
}

/// What a place was sent as. Nobody can receive it any more once the place is gone.
#[derive(Debug)]
pub(crate) struct Message {
    pub name: Box<str>,
    /// None if the trace is not divided.
    pub forgotten: Option<Arc<Forgotten>>,
}

impl Drop for Message {
    fn drop(&mut self) {
        if let Some(forgotten) = &self.forgotten {
            forgotten.0.lock().unwrap_or_else(PoisonError::into_inner).push(std::mem::take(&mut self.name));
        }
    }
}

impl Slot {
    fn noted(&self) -> MutexGuard<'_, Option<Noted>> {
        self.noted.lock().unwrap_or_else(PoisonError::into_inner)
    }

    pub fn note(&self, noted: Noted) {
        *self.noted() = Some(noted);
    }

    /// The same as it was noted, with the time of that, if it was noted last.
    pub fn noted_as(&self, given: Noted) -> Noted {
        let time = self.noted().filter(|noted| noted.gives.lock_number() == given.gives.lock_number()).and_then(|noted| noted.time);
        Noted { time, ..given }
    }

    /// What has marked the place, if that is not sent yet.
    pub fn unsent(&self) -> Option<Noted> {
        if self.message.get().is_some() {
            None
        } else {
            *self.noted()
        }
    }

    pub fn message(&self) -> Option<&str> {
        self.message.get().map(|message| &*message.name)
    }

    pub fn is_sent_as(&self, message: Message) {
        let _ = self.message.set(message);
    }
}

/// A place in a task, behind all that it did until then. Who holds it besides the task may come after it.
#[derive(Debug)]
pub(crate) struct Place {
    pub task: Task,
    /// How many places of the task were sent up to this one. It is 0 as long as it is not sent.
    position: AtomicU64,
    luck: Slot,
    guard: Slot,
    meant: Slot,
}

impl Place {
    pub fn new(task: Task) -> Arc<Place> {
        Arc::new(Place { task, position: AtomicU64::new(0), luck: Slot::default(), guard: Slot::default(), meant: Slot::default() })
    }

    pub fn slot(&self, kind: Kind) -> &Slot {
        match kind {
            Kind::Luck => &self.luck,
            Kind::Guard => &self.guard,
            Kind::Meant => &self.meant,
        }
    }

    pub fn position(&self) -> u64 {
        self.position.load(Ordering::Relaxed)
    }

    pub fn is_sent_at(&self, position: u64) {
        self.position.store(position, Ordering::Relaxed);
    }

    /// What has marked the place by luck, by locks and by what was meant, and is not sent yet.
    pub fn unsent(&self) -> impl Iterator<Item = Noted> + '_ {
        [&self.luck, &self.guard, &self.meant].into_iter().filter_map(Slot::unsent)
    }
}

/// A place that somebody may come after, and what has marked it. As long as it is kept, it counts.
#[derive(Clone, Debug)]
pub(crate) struct Mark {
    pub place: Arc<Place>,
    pub noted: Noted,
}
