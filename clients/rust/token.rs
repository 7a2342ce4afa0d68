//! Marks for an order that nothing of this crate has.

use crate::place::{Gives, What};
use crate::traced::Givers;
use std::panic::Location;

static BEFORE: What = What::new("mark", "before", "after");

/// An order within the process, for what has no counterpart in this crate. Whoever calls [`Token::after`] comes after all who have called
/// [`Token::before`] by then. Neither waits for the collector.
///
/// `before` stands in front of what lets another thread go on, and `after` behind what has waited for it:
///
/// ```
/// # use itc_trace::Token;
/// # use std::sync::mpsc;
/// static READY: Token = Token::new();
///
/// let (sender, receiver) = mpsc::channel();
/// std::thread::spawn(move || {
///     READY.before();
///     sender.send(()).unwrap();
/// });
/// receiver.recv().unwrap();
/// READY.after();
/// ```
#[derive(Debug, Default)]
pub struct Token(Givers);

impl Token {
    /// Nobody has called `before`.
    #[must_use]
    pub const fn new() -> Token {
        Token(Givers::new())
    }

    /// What this thread did by now comes before whoever calls `after` from now on.
    #[track_caller]
    pub fn before(&self) {
        self.0.give(Gives::Order(&BEFORE), Some(Location::caller()));
    }

    /// This thread comes after all who have called `before` by now.
    #[track_caller]
    pub fn after(&self) {
        self.0.take(Some(Location::caller()));
    }
}

/// As [`Token::before`].
#[track_caller]
pub fn before(token: &Token) {
    token.before();
}

/// As [`Token::after`].
#[track_caller]
pub fn after(token: &Token) {
    token.after();
}
