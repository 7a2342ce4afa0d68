//! Two threads sell from one stock, without a lock and with one. The collector tells whether that is a race.
//!
//! Usage: cargo run --example example PORT TENANT

use itc_trace::{Error, Kind, Session};
use std::sync::atomic::{AtomicI64, Ordering};
use std::sync::{Mutex, MutexGuard};
use std::thread;

/// A lock whose release is a message to whoever acquires it next. It keeps how often it was released.
struct TracedLock<'a> {
    session: &'a Session,
    name: &'a str,
    releases: Mutex<u64>,
}

impl TracedLock<'_> {
    fn acquire(&self, task: &str) -> Result<MutexGuard<'_, u64>, Error> {
        let releases = self.releases.lock().unwrap();
        if *releases > 0 {
            self.session.recv(task, &format!("{}_{releases}", self.name))?;
        }
        Ok(releases)
    }

    fn release(&self, task: &str, mut releases: MutexGuard<'_, u64>) -> Result<(), Error> {
        *releases += 1;
        self.session.send(task, &format!("{}_{releases}", self.name))?;
        Ok(())
    }
}

/// Sells one piece. Gives the events at which the stock was read and written.
fn sell(session: &Session, task: &str, stock: &AtomicI64, lock: Option<&TracedLock>) -> Result<(u64, u64), Error> {
    let held = lock.map(|lock| lock.acquire(task)).transpose()?;
    let left = stock.load(Ordering::SeqCst);
    let read = session.local(task)?;
    stock.store(left - 1, Ordering::SeqCst);
    let write = session.local(task)?;
    if let (Some(lock), Some(held)) = (lock, held) {
        lock.release(task, held)?;
    }
    session.end(task)?;
    Ok((read, write))
}

/// Has two threads sell at once, and tells whether nothing orders the write of one and the read of the other.
fn is_race(session: &Session, asking: &Session, names: [&str; 2], lock: Option<&TracedLock>) -> Result<bool, Error> {
    let stock = AtomicI64::new(2);
    let events = thread::scope(|scope| {
        let mut threads = Vec::new();
        for name in names {
            session.spawn("root", name)?;
            let stock = &stock;
            threads.push(scope.spawn(move || sell(session, name, stock, lock)));
        }
        let mut events = Vec::new();
        for (name, thread) in names.into_iter().zip(threads) {
            events.push(thread.join().unwrap()?);
            session.join("root", name)?;
        }
        Ok::<_, Error>(events)
    })?;
    Ok(asking.order(events[0].1, events[1].0)? == "concurrent")
}

fn tell(title: &str, is_race: bool) {
    println!("{title}: {}", if is_race { "a race" } else { "no race" });
}

fn main() -> Result<(), Box<dyn std::error::Error>> {
    let words: Vec<String> = std::env::args().collect();
    let (port, tenant) = (words[1].parse()?, &words[2]);
    let session = Session::new(Kind::Report, tenant, port)?;
    let asking = Session::new(Kind::View, tenant, port)?;
    tell("without a lock", is_race(&session, &asking, ["alice", "bob"], None)?);
    let lock = TracedLock { session: &session, name: "stock", releases: Mutex::new(0) };
    tell("with a lock", is_race(&session, &asking, ["carol", "dave"], Some(&lock))?);
    let (events, tasks, messages) = asking.count()?;
    println!("events: {events}, tasks: {tasks}, messages: {messages}");
    Ok(())
}
