//! Futures that are tasks of their own, whichever thread polls them.

use crate::journal::Site;
use crate::place::{Gives, What};
use crate::traced::{self, Done, Givers};
use crate::tracer::Task;
use std::future::Future;
use std::panic::Location;
use std::pin::Pin;
use std::sync::Arc;
use std::task::{Context, Poll, Wake, Waker};

static WAKE: What = What::new("wake", "wake", "is polled");

/// A future that is a task of its own. It comes after whoever has made it, and after each who wakes it.
#[derive(Debug)]
#[must_use = "futures do nothing unless you poll them"]
pub struct Traced<F: Future> {
    future: Pin<Box<F>>,
    task: Option<Task>,
    wakers: Arc<Givers>,
    done: Done,
    site: Site,
}

/// Has a future be a task of its own, for any executor: `executor.spawn(itc_trace::future::traced("order", work()))`. Whoever takes its
/// value from the executor comes after it by what the executor is, as by a channel or by a [`crate::Token`].
#[track_caller]
pub fn traced<F: Future>(name: &str, future: F) -> Traced<F> {
    let site = Some(Location::caller());
    Traced { future: Box::pin(future), task: traced::spawn(name, site), wakers: Arc::default(), done: Done::default(), site }
}

/// A waker that tells who has waked.
struct Telling {
    wakers: Arc<Givers>,
    waker: Waker,
}

impl Wake for Telling {
    fn wake(self: Arc<Telling>) {
        self.wake_by_ref();
    }

    fn wake_by_ref(self: &Arc<Telling>) {
        self.wakers.give(Gives::Order(&WAKE), None);
        self.waker.wake_by_ref();
    }
}

impl<F: Future> Future for Traced<F> {
    type Output = F::Output;

    fn poll(self: Pin<&mut Self>, context: &mut Context<'_>) -> Poll<F::Output> {
        let this = self.get_mut();
        if this.task.is_none() {
            return this.future.as_mut().poll(context);
        }
        let waker = Waker::from(Arc::new(Telling { wakers: this.wakers.clone(), waker: context.waker().clone() }));
        let (future, wakers, site) = (&mut this.future, &this.wakers, this.site);
        let polled = traced::run_as(this.task, || {
            wakers.take_away(site);
            future.as_mut().poll(&mut Context::from_waker(&waker))
        });
        if polled.is_ready() {
            this.done = Done::default();
            traced::end_of(this.task.take());
        }
        polled
    }
}

impl<F: Future> Drop for Traced<F> {
    fn drop(&mut self) {
        traced::end_of(self.task.take());
    }
}
