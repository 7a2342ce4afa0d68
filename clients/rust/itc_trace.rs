//! A client of itc_trace serve: reports what tasks do, and asks how events are ordered.
//!
//! [`Session`] reports and asks by hand. A program that uses the [`thread`]s, locks and channels of this crate in place of those of the
//! standard library, and marks what it shares by [`touch`], reports behind its back.

mod ending;
mod environment;
pub mod future;
mod journal;
mod line;
mod lines;
mod names;
mod place;
pub mod process;
mod reporter;
mod session;
mod sites;
pub mod sync;
pub mod thread;
mod token;
mod traced;
mod tracer;
pub mod web;

pub use reporter::Reporter;
pub use session::{Error, Event, Kind, Session};
pub use token::{after, before, Token};
pub use traced::{begin, finish, incoming, outgoing, touch, touch_across, Trace, HEADER};
