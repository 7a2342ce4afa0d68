//! Channels whose messages carry the order, used as those of the standard library.
//!
//! Room in a bounded channel gives no order, but for a channel without room: there the sender comes after the receipt, too. Whoever sees
//! the end of a channel comes after the end of each sender.

use super::ITEM;
use crate::journal::Site;
use crate::place::{Gives, Mark, What};
use crate::traced::{mark, on, take, Givers};
use std::fmt::{self, Debug};
use std::panic::Location;
use std::sync::{mpsc, Arc, Weak};
use std::time::Duration;

pub use std::sync::mpsc::{RecvError, RecvTimeoutError, SendError, TryRecvError, TrySendError};

/// What is sent: the value, the place where that was, and who waits for its receipt.
struct Carried<T> {
    value: T,
    mark: Option<Mark>,
    receipt: Option<mpsc::Sender<Option<Mark>>>,
}

static CLOSED: What = What::new("closed", "drop sender", "see the end of the channel");
static RECEIPT: What = What::new("receipt", "receive", "is received");

/// The end of one sender, told by the line that made it. It is of interest as long as there is a receiver.
struct End {
    ends: Weak<Givers>,
    made: Site,
}

impl Drop for End {
    fn drop(&mut self) {
        if let Some(ends) = self.ends.upgrade() {
            ends.give(Gives::Order(&CLOSED), self.made);
        }
    }
}

impl End {
    #[track_caller]
    fn of(ends: Weak<Givers>) -> End {
        End { ends, made: Some(Location::caller()) }
    }
}

/// The end of a channel that sends.
pub struct Sender<T> {
    end: End, // It is dropped first.
    sender: mpsc::Sender<Carried<T>>,
}

/// The end of a channel that sends, and waits for room.
pub struct SyncSender<T> {
    end: End,
    sender: mpsc::SyncSender<Carried<T>>,
    has_room: bool,
}

/// The end of a channel that receives.
pub struct Receiver<T> {
    receiver: mpsc::Receiver<Carried<T>>,
    ends: Arc<Givers>,
}

/// A channel without a bound.
#[track_caller]
pub fn channel<T>() -> (Sender<T>, Receiver<T>) {
    let ((sender, receiver), ends) = (mpsc::channel(), Arc::<Givers>::default());
    (Sender { end: End::of(Arc::downgrade(&ends)), sender }, Receiver { receiver, ends })
}

/// A channel that holds so many messages.
#[track_caller]
pub fn sync_channel<T>(bound: usize) -> (SyncSender<T>, Receiver<T>) {
    let ((sender, receiver), ends) = (mpsc::sync_channel(bound), Arc::<Givers>::default());
    (SyncSender { end: End::of(Arc::downgrade(&ends)), sender, has_room: bound > 0 }, Receiver { receiver, ends })
}

impl<T> Clone for Sender<T> {
    #[track_caller]
    fn clone(&self) -> Sender<T> {
        Sender { end: End::of(self.end.ends.clone()), sender: self.sender.clone() }
    }
}

impl<T> Clone for SyncSender<T> {
    #[track_caller]
    fn clone(&self) -> SyncSender<T> {
        SyncSender { end: End::of(self.end.ends.clone()), sender: self.sender.clone(), has_room: self.has_room }
    }
}

impl<T> Sender<T> {
    /// Sends. It never waits.
    #[track_caller]
    pub fn send(&self, value: T) -> Result<(), SendError<T>> {
        let mark = mark(Gives::Order(&ITEM), Some(Location::caller()));
        self.sender.send(Carried { value, mark, receipt: None }).map_err(|failed| SendError(failed.0.value))
    }
}

impl<T> SyncSender<T> {
    /// Sends, and waits for room.
    #[track_caller]
    pub fn send(&self, value: T) -> Result<(), SendError<T>> {
        let site = Some(Location::caller());
        let mark = mark(Gives::Order(&ITEM), site);
        let (receipt, received) = match !self.has_room && on().is_some() {
            true => {
                let (receipt, received) = mpsc::channel();
                (Some(receipt), Some(received))
            }
            false => (None, None),
        };
        self.sender.send(Carried { value, mark, receipt }).map_err(|failed| SendError(failed.0.value))?;
        if let Some(Ok(receipt)) = received.map(|received| received.recv()) {
            take(receipt.as_ref(), site);
        }
        Ok(())
    }

    /// Sends, if there is room.
    #[track_caller]
    pub fn try_send(&self, value: T) -> Result<(), TrySendError<T>> {
        let mark = mark(Gives::Order(&ITEM), Some(Location::caller()));
        self.sender.try_send(Carried { value, mark, receipt: None }).map_err(|failed| match failed {
            TrySendError::Full(carried) => TrySendError::Full(carried.value),
            TrySendError::Disconnected(carried) => TrySendError::Disconnected(carried.value),
        })
    }
}

impl<T> Receiver<T> {
    /// Waits for a message.
    #[track_caller]
    pub fn recv(&self) -> Result<T, RecvError> {
        self.received(self.receiver.recv(), RecvError, Some(Location::caller()))
    }

    /// A message, if there is one.
    #[track_caller]
    pub fn try_recv(&self) -> Result<T, TryRecvError> {
        self.received(self.receiver.try_recv(), TryRecvError::Disconnected, Some(Location::caller()))
    }

    /// Waits for a message, and at most so long.
    #[track_caller]
    pub fn recv_timeout(&self, time: Duration) -> Result<T, RecvTimeoutError> {
        self.received(self.receiver.recv_timeout(time), RecvTimeoutError::Disconnected, Some(Location::caller()))
    }

    /// The messages up to the end of the last sender.
    #[track_caller]
    pub fn iter(&self) -> Iter<'_, T> {
        Iter { receiver: self, site: Some(Location::caller()) }
    }

    /// The messages that are there already.
    #[track_caller]
    pub fn try_iter(&self) -> TryIter<'_, T> {
        TryIter { receiver: self, site: Some(Location::caller()) }
    }

    /// This thread comes after the place where the message was sent, or after the ends of all senders if it has seen that there are none.
    fn received<E: PartialEq>(&self, received: Result<Carried<T>, E>, end: E, site: Site) -> Result<T, E> {
        if received.as_ref().is_err_and(|failed| *failed == end) {
            self.ends.take(site);
        }
        received.map(|carried| taken(carried, site))
    }
}

/// The messages up to the end of the last sender.
#[derive(Debug)]
pub struct Iter<'a, T> {
    receiver: &'a Receiver<T>,
    site: Site,
}

impl<T> Iterator for Iter<'_, T> {
    type Item = T;

    fn next(&mut self) -> Option<T> {
        self.receiver.received(self.receiver.receiver.recv(), RecvError, self.site).ok()
    }
}

/// The messages that are there already.
#[derive(Debug)]
pub struct TryIter<'a, T> {
    receiver: &'a Receiver<T>,
    site: Site,
}

impl<T> Iterator for TryIter<'_, T> {
    type Item = T;

    fn next(&mut self) -> Option<T> {
        self.receiver.received(self.receiver.receiver.try_recv(), TryRecvError::Disconnected, self.site).ok()
    }
}

/// The messages up to the end of the last sender, with the receiver.
#[derive(Debug)]
pub struct IntoIter<T> {
    receiver: Receiver<T>,
    site: Site,
}

impl<T> Iterator for IntoIter<T> {
    type Item = T;

    fn next(&mut self) -> Option<T> {
        Iter { receiver: &self.receiver, site: self.site }.next()
    }
}

impl<'a, T> IntoIterator for &'a Receiver<T> {
    type Item = T;
    type IntoIter = Iter<'a, T>;

    #[track_caller]
    fn into_iter(self) -> Iter<'a, T> {
        self.iter()
    }
}

impl<T> IntoIterator for Receiver<T> {
    type Item = T;
    type IntoIter = IntoIter<T>;

    #[track_caller]
    fn into_iter(self) -> IntoIter<T> {
        IntoIter { receiver: self, site: Some(Location::caller()) }
    }
}

fn taken<T>(carried: Carried<T>, site: Site) -> T {
    take(carried.mark.as_ref(), site);
    if let Some(receipt) = carried.receipt {
        let _ = receipt.send(mark(Gives::Order(&RECEIPT), site));
    }
    carried.value
}

impl<T> Debug for Sender<T> {
    fn fmt(&self, f: &mut fmt::Formatter<'_>) -> fmt::Result {
        f.debug_struct("Sender").finish_non_exhaustive()
    }
}

impl<T> Debug for SyncSender<T> {
    fn fmt(&self, f: &mut fmt::Formatter<'_>) -> fmt::Result {
        f.debug_struct("SyncSender").finish_non_exhaustive()
    }
}

impl<T> Debug for Receiver<T> {
    fn fmt(&self, f: &mut fmt::Formatter<'_>) -> fmt::Result {
        f.debug_struct("Receiver").finish_non_exhaustive()
    }
}
