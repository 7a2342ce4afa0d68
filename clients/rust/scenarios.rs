//! Programs as people write them, each with a race and without one: clients/scenarios.py runs them. With a race exactly the lines race that
//! name the program in a comment.
//!
//! Usage: scenarios NAME [race]

use itc_trace::sync::atomic::{AtomicBool, AtomicUsize, Ordering};
use itc_trace::sync::mpsc::{channel, sync_channel, Receiver, Sender, TryRecvError};
use itc_trace::sync::{Arc, Barrier, Condvar, Mutex, OnceLock, RwLock};
use itc_trace::thread::{self, JoinHandle};
use itc_trace::{incoming, outgoing, touch};
use std::env;
use std::panic::resume_unwind;
use std::time::Duration;

mod habits;
mod services;

fn many(count: usize, body: impl Fn(usize) + Send + Sync + 'static) -> Vec<JoinHandle<()>> {
    let body = Arc::new(body);
    (0..count)
        .map(|number| {
            let body = body.clone();
            thread::spawn(move || body(number))
        })
        .collect()
}

fn join(threads: Vec<JoinHandle<()>>) {
    threads.into_iter().for_each(|thread| thread.join().unwrap());
}

/// Clerks book under a lock. An auditor who does not acquire it reads what they write.
fn bank(is_raced: bool) {
    let lock = Arc::new(Mutex::new(0));
    let balance = lock.clone();
    let mut threads = many(3, move |_| {
        for _ in 0..5 {
            let mut balance = balance.lock().unwrap();
            touch("balance", true); // race: bank
            *balance += 1;
        }
    });
    threads.push(thread::spawn(move || {
        let held = if is_raced { None } else { Some(lock.lock().unwrap()) };
        touch("balance", false); // race: bank
        drop(held);
    }));
    join(threads);
}

/// Workers take jobs from one queue behind a lock and send results.
fn pool(is_raced: bool) {
    let (jobs, waiting) = channel::<usize>();
    let (done, results) = channel();
    let waiting = Arc::new(Mutex::new(waiting));
    let done = Mutex::new(done);
    let workers = many(3, move |_| loop {
        let job = waiting.lock().unwrap().recv();
        let Ok(job) = job else { break };
        touch(&format!("result {job}"), true); // race: pool
        done.lock().unwrap().send(job).unwrap();
    });
    (0..6).for_each(|job| jobs.send(job).unwrap());
    if is_raced {
        touch("result 5", false); // race: pool
    }
    for _ in 0..6 {
        touch(&format!("result {}", results.recv().unwrap()), false);
    }
    drop(jobs);
    join(workers);
}

/// An item is filled before it is handed on, or also behind that.
fn hand_over(is_raced: bool) {
    let (sender, receiver) = sync_channel(2);
    let taker = thread::spawn(move || {
        for item in receiver {
            touch(item, false); // race: hand_over
        }
    });
    for item in ["apple", "pear", "plum"] {
        touch(item, true);
        sender.send(item).unwrap();
    }
    if is_raced {
        touch("plum", true); // race: hand_over
    }
    drop(sender);
    taker.join().unwrap();
}

/// A table that many read and one writes, who acquires the lock for readers if there is a race.
fn table(is_raced: bool) {
    let lock = Arc::new(RwLock::new(1));
    let own = lock.clone();
    let mut threads = many(3, move |_| {
        for _ in 0..4 {
            let table = own.read().unwrap();
            touch("table", false); // race: table
            drop(table);
        }
    });
    threads.push(thread::spawn(move || {
        if is_raced {
            let table = lock.read().unwrap();
            touch("table", true); // race: table
            drop(table);
        } else {
            let mut table = lock.write().unwrap();
            touch("table", true);
            *table += 1;
        }
    }));
    join(threads);
}

/// Workers of a scope each have a part of one array.
fn parts(is_raced: bool) {
    let mut cells = [0; 8];
    thread::scope(|scope| {
        for (number, cell) in cells.iter_mut().enumerate() {
            scope.spawn(move || {
                touch(&format!("cell {number}"), true); // race: parts
                *cell = number;
            });
        }
        if is_raced {
            touch("cell 7", false); // race: parts
        }
    });
    touch("cell 7", false);
    assert_eq!(cells[7], 7);
}

/// Rounds between barriers. The second barrier is forgotten if there is a race.
fn rounds(is_raced: bool) {
    let barrier = Barrier::new(3);
    join(many(3, move |number| {
        touch(&format!("cell {number}"), true);
        barrier.wait();
        touch(&format!("cell {}", (number + 1) % 3), false); // race: rounds
        if !is_raced {
            barrier.wait();
        }
        touch(&format!("cell {number}"), true); // race: rounds
    }));
}

/// Stages hand on by channels. The last one changes what it has handed on if there is a race.
fn stages(is_raced: bool) {
    let (first, second) = channel();
    let (third, last) = channel();
    let stage = thread::spawn(move || {
        for part in second {
            touch(part, true);
            third.send(part).unwrap();
            if is_raced {
                touch(part, true); // race: stages
            }
        }
    });
    for part in ["head", "body"] {
        touch(part, true);
        first.send(part).unwrap();
    }
    drop(first);
    for part in last {
        touch(part, false); // race: stages
    }
    stage.join().unwrap();
}

/// A value that whoever comes first makes. One who does not ask for it may come before it is there.
fn cache(is_raced: bool) {
    static VALUE: OnceLock<usize> = OnceLock::new();
    let threads = many(4, |_| {
        VALUE.get_or_init(|| {
            touch("value", true); // race: cache
            7
        });
        touch("value", false);
    });
    if is_raced {
        touch("value", false); // race: cache
    }
    join(threads);
}

/// A connection that whoever has the permit uses. A thief has none.
fn connection(is_raced: bool) {
    let (give, permits) = channel();
    give.send(()).unwrap();
    let (permits, give) = (Mutex::new(permits), Mutex::new(give));
    let mut threads = many(3, move |_| {
        permits.lock().unwrap().recv().unwrap();
        touch("connection", true); // race: connection
        give.lock().unwrap().send(()).unwrap();
    });
    if is_raced {
        threads.push(thread::spawn(|| touch("connection", true))); // race: connection
    }
    join(threads);
}

/// One waits by a condition until another one has written.
fn condition(is_raced: bool) {
    let ready = Arc::new((Mutex::new(false), Condvar::new()));
    let own = ready.clone();
    let waiter = thread::spawn(move || {
        drop(own.1.wait_while(own.0.lock().unwrap(), |is_ready| {
            touch("flag", false);
            !*is_ready
        }));
        touch("meal", false); // race: condition
    });
    if !is_raced {
        touch("meal", true);
    }
    let mut is_ready = ready.0.lock().unwrap();
    touch("flag", true);
    *is_ready = true;
    drop(is_ready);
    ready.1.notify_one();
    if is_raced {
        touch("meal", true); // race: condition
    }
    waiter.join().unwrap();
}

/// Whoever is done last reads what all have done.
fn last_one(is_raced: bool) {
    let left = AtomicUsize::new(3);
    let threads = many(3, move |number| {
        touch(&format!("share {number}"), true); // race: last_one
        if left.fetch_sub(1, Ordering::AcqRel) == 1 {
            (0..3).for_each(|number| touch(&format!("share {number}"), false));
        }
    });
    if is_raced {
        touch("share 1", false); // race: last_one
    }
    join(threads);
}

/// A worker goes on until a flag is set. By a relaxed one it does not come after who set it.
fn stop_flag(is_raced: bool) {
    let flag = Arc::new(AtomicBool::new(false));
    let seen = flag.clone();
    let worker = thread::spawn(move || {
        let order = if is_raced { Ordering::Relaxed } else { Ordering::Acquire };
        while !seen.load(order) {
            thread::sleep(Duration::from_millis(1));
        }
        touch("result", false); // race: stop_flag
    });
    touch("result", true); // race: stop_flag
    flag.store(true, Ordering::Release);
    worker.join().unwrap();
}

/// A thread panics behind its write. Who joins it comes after that.
fn failure(is_raced: bool) {
    let failing = thread::spawn(|| {
        touch("log", true); // race: failure
        resume_unwind(Box::new("as it is to be"));
    });
    if is_raced {
        touch("log", false); // race: failure
    }
    assert!(failing.join().is_err());
    touch("log", false);
}

/// A lock that is poisoned by a panic still orders.
fn poisoned(is_raced: bool) {
    let lock = Arc::new(Mutex::new(()));
    let own = lock.clone();
    let failing = thread::spawn(move || {
        let _held = own.lock().unwrap();
        touch("page", true); // race: poisoned
        resume_unwind(Box::new("as it is to be"));
    });
    let reader = thread::spawn(move || {
        let held = if is_raced { None } else { Some(lock.lock().unwrap_or_else(|poison| poison.into_inner())) };
        touch("page", false); // race: poisoned
        drop(held);
    });
    assert!(failing.join().is_err());
    reader.join().unwrap();
}

/// Two locks that all acquire in one order. If there is a race, one holds a lock that nobody else acquires.
fn two_locks(is_raced: bool) {
    let locks = Arc::new((Mutex::new(()), Mutex::new(()), Mutex::new(())));
    let own = locks.clone();
    let mut threads = many(3, move |_| {
        let first = own.0.lock().unwrap();
        let second = own.1.lock().unwrap();
        touch("both", true); // race: two_locks
        drop((first, second));
    });
    threads.push(thread::spawn(move || {
        let held = if is_raced { locks.2.lock() } else { locks.1.lock() };
        touch("both", true); // race: two_locks
        drop(held);
    }));
    join(threads);
}

/// One parks until another one has written.
fn parked(is_raced: bool) {
    let ready = Arc::new(AtomicBool::new(false));
    let is_ready = ready.clone();
    let sleeper = thread::spawn(move || {
        thread::park();
        while !is_ready.load(Ordering::Relaxed) {
            thread::park();
        }
        touch("bed", false); // race: parked
    });
    if !is_raced {
        touch("bed", true);
    }
    ready.store(true, Ordering::Relaxed);
    sleeper.thread().unpark();
    if is_raced {
        touch("bed", true); // race: parked
    }
    sleeper.join().unwrap();
}

/// Two swap their buffers by two channels.
fn swap(is_raced: bool) {
    let (to_right, from_left) = channel();
    let (to_left, from_right) = channel();
    let side = move |own: &'static str, give: Sender<&'static str>, take: Receiver<&'static str>| {
        touch(own, true);
        give.send(own).unwrap();
        let other = take.recv().unwrap();
        touch(other, true); // race: swap
        if is_raced {
            touch(own, true); // race: swap
        }
    };
    let left = thread::spawn(move || side("left", to_right, from_right));
    let right = thread::spawn(move || side("right", to_left, from_left));
    join(vec![left, right]);
}

/// Many threads, each with a cell, and one who reads them all.
fn crowd(is_raced: bool) {
    let threads = many(64, |number| touch(&format!("cell {number}"), true)); // race: crowd
    if is_raced {
        touch("cell 63", false); // race: crowd
    }
    join(threads);
    (0..64).for_each(|number| touch(&format!("cell {number}"), false));
}

/// A thread that starts one and does not wait for it.
fn grandchild(is_raced: bool) {
    let child = thread::spawn(move || {
        let grandchild = thread::spawn(|| touch("toy", true)); // race: grandchild
        if is_raced {
            Some(grandchild)
        } else {
            grandchild.join().unwrap();
            None
        }
    });
    let grandchild = child.join().unwrap();
    touch("toy", false); // race: grandchild
    grandchild.into_iter().for_each(|thread| thread.join().unwrap());
}

/// A message by name, through a place that nobody follows.
fn mailbox(is_raced: bool) {
    let (post, letters) = std::sync::mpsc::channel();
    let reader = thread::spawn(move || {
        let letter: String = letters.recv().unwrap();
        if !is_raced {
            incoming(&letter);
        }
        touch("letter", false); // race: mailbox
    });
    touch("letter", true); // race: mailbox
    post.send(outgoing().unwrap_or_default()).unwrap();
    reader.join().unwrap();
}

/// One looks again and again whether a channel has something.
fn polled(is_raced: bool) {
    let (sender, receiver) = channel();
    let looker = thread::spawn(move || {
        loop {
            match receiver.try_recv() {
                Ok(()) => break,
                Err(TryRecvError::Empty) => thread::yield_now(),
                Err(TryRecvError::Disconnected) => panic!("nobody has sent"),
            }
        }
        touch("news", false); // race: polled
    });
    if !is_raced {
        touch("news", true);
    }
    sender.send(()).unwrap();
    if is_raced {
        touch("news", true); // race: polled
    }
    looker.join().unwrap();
}

/// A counter whose last holder comes after all that others did before they let go of theirs.
fn shared_map(is_raced: bool) {
    let lock = Arc::new(Mutex::new(Vec::new()));
    let own = lock.clone();
    let threads = many(4, move |number| {
        let mut entries = own.lock().unwrap();
        touch("entries", false);
        touch("entries", true); // race: shared_map
        entries.push(number);
    });
    if is_raced {
        touch("entries", false); // race: shared_map
    }
    join(threads);
    assert_eq!(lock.lock().unwrap().len(), 4);
    touch("entries", false);
}

type Program = fn(bool);

const PROGRAMS: [(&str, Program); 22] = [
    ("bank", bank),
    ("pool", pool),
    ("hand_over", hand_over),
    ("table", table),
    ("parts", parts),
    ("rounds", rounds),
    ("stages", stages),
    ("cache", cache),
    ("connection", connection),
    ("condition", condition),
    ("last_one", last_one),
    ("stop_flag", stop_flag),
    ("failure", failure),
    ("poisoned", poisoned),
    ("two_locks", two_locks),
    ("parked", parked),
    ("swap", swap),
    ("crowd", crowd),
    ("grandchild", grandchild),
    ("mailbox", mailbox),
    ("polled", polled),
    ("shared_map", shared_map),
];

fn main() {
    let words: Vec<String> = env::args().skip(1).collect();
    let mut programs = PROGRAMS.iter().chain(&services::PROGRAMS).chain(&habits::PROGRAMS);
    match words.first() {
        None => programs.for_each(|(name, _)| println!("{name}")),
        Some(asked) => {
            let (_, program) = programs.find(|(name, _)| name == asked).expect("there is no such program");
            program(words.len() > 1);
        }
    }
}
