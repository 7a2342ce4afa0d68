//! A barrier. Whoever leaves it comes after all who arrived at it.

use crate::journal::Site;
use crate::place::{Gives, Mark, What};
use crate::traced::{mark, take, Givers};
use std::fmt::{self, Debug};
use std::panic::Location;
use std::sync::{Arc, Condvar, Mutex, OnceLock, PoisonError};

static ARRIVAL: What = What::new("arrive", "arrive at barrier", "see arrival");
static LEAVE: What = What::new("leave", "open barrier", "leave barrier");

/// Those that leave together.
#[derive(Default)]
struct Round {
    arrived: Givers,
    /// Where the last one was that arrived, which comes after all others.
    opened: OnceLock<Mark>,
}

#[derive(Default)]
struct State {
    count: usize,
    round: Option<Arc<Round>>,
    number: usize,
}

/// Lets so many threads wait until all have arrived.
pub struct Barrier {
    most: usize,
    state: Mutex<State>,
    changed: Condvar,
}

/// Says of one of the threads that it is the leader.
pub struct BarrierWaitResult(bool);

impl BarrierWaitResult {
    /// Whether this thread is the leader.
    #[must_use]
    pub fn is_leader(&self) -> bool {
        self.0
    }
}

impl Debug for BarrierWaitResult {
    fn fmt(&self, f: &mut fmt::Formatter<'_>) -> fmt::Result {
        f.debug_struct("BarrierWaitResult").field("is_leader", &self.0).finish()
    }
}

impl Debug for Barrier {
    fn fmt(&self, f: &mut fmt::Formatter<'_>) -> fmt::Result {
        f.debug_struct("Barrier").finish_non_exhaustive()
    }
}

impl Barrier {
    /// A barrier for so many threads.
    #[must_use]
    pub const fn new(most: usize) -> Barrier {
        Barrier { most, state: Mutex::new(State { count: 0, round: None, number: 0 }), changed: Condvar::new() }
    }

    /// Waits until all have arrived.
    #[track_caller]
    pub fn wait(&self) -> BarrierWaitResult {
        let site: Site = Some(Location::caller());
        let mut state = self.state.lock().unwrap_or_else(PoisonError::into_inner);
        let round = state.round.get_or_insert_with(Arc::default).clone();
        state.count += 1;
        if state.count < self.most {
            round.arrived.give(Gives::Order(&ARRIVAL), site);
            let number = state.number;
            while state.number == number {
                state = self.changed.wait(state).unwrap_or_else(PoisonError::into_inner);
            }
            drop(state);
            take(round.opened.get(), site);
            return BarrierWaitResult(false);
        }
        round.arrived.take_away(site);
        if let Some(mark) = mark(Gives::Order(&LEAVE), site) {
            let _ = round.opened.set(mark);
        }
        (state.count, state.round) = (0, None);
        state.number = state.number.wrapping_add(1);
        drop(state);
        self.changed.notify_all();
        BarrierWaitResult(true)
    }
}
