//! Programs of services, each with a race and without one, as those of scenarios.rs.

use super::{join, many, Program};
use itc_trace::sync::atomic::{AtomicBool, AtomicPtr, Ordering};
use itc_trace::sync::mpsc::{channel, sync_channel, SyncSender};
use itc_trace::sync::{Arc, Barrier, Condvar, Mutex, RwLock};
use itc_trace::{thread, touch};
use std::collections::VecDeque;
use std::ptr;
use std::sync::mpsc as plain;

pub const PROGRAMS: [(&str, Program); 13] = [
    ("producers", producers),
    ("leader", leader),
    ("ring", ring),
    ("snapshot", snapshot),
    ("stack", stack),
    ("double_checked", double_checked),
    ("actor", actor),
    ("permits", permits),
    ("latch", latch),
    ("shards", shards),
    ("quit", quit),
    ("scoped", scoped),
    ("spin", spin),
];

/// Several send to one, who takes all until the last sender is gone. One changes what it has sent if there is a race.
fn producers(is_raced: bool) {
    let (sender, receiver) = channel();
    let senders: Vec<_> = (0..3).map(|number| (number, sender.clone())).collect();
    drop(sender);
    let threads = senders
        .into_iter()
        .map(|(number, sender)| {
            thread::spawn(move || {
                for turn in 0..2 {
                    let item = format!("item {number} {turn}");
                    touch(&item, true);
                    sender.send(item).unwrap();
                }
                if is_raced && number == 1 {
                    touch("item 1 1", true); // race: producers
                }
            })
        })
        .collect();
    let mut count = 0;
    for item in receiver.iter() {
        touch(&item, false); // race: producers
        count += 1;
    }
    assert_eq!(count, 6);
    join(threads);
}

/// Of several who meet one adds up what all have written. The others wait for that, but if there is a race.
fn leader(is_raced: bool) {
    let barrier = Arc::new(Barrier::new(3));
    join(many(3, move |number| {
        touch(&format!("share {number}"), true);
        if barrier.wait().is_leader() {
            (0..3).for_each(|one| touch(&format!("share {one}"), false));
            touch("sum", true); // race: leader
        }
        if !is_raced {
            barrier.wait();
        }
        touch("sum", false); // race: leader
    }));
}

/// A ring with room for two items, and a condition for each end. What was put there is changed once more if there is a race.
fn ring(is_raced: bool) {
    let own = Arc::new((Mutex::new(VecDeque::new()), Condvar::new(), Condvar::new()));
    let other = own.clone();
    let taker = thread::spawn(move || {
        let (items, has_room, has_items) = &*other;
        for _ in 0..6 {
            let mut held = has_items.wait_while(items.lock().unwrap(), |items| items.is_empty()).unwrap();
            let item: String = held.pop_front().unwrap();
            has_room.notify_one();
            drop(held);
            touch(&item, false); // race: ring
        }
    });
    let (items, has_room, has_items) = &*own;
    for number in 0..6 {
        let item = format!("item {number}");
        touch(&item, true);
        let mut held = has_room.wait_while(items.lock().unwrap(), |items| items.len() == 2).unwrap();
        held.push_back(item);
        has_items.notify_one();
    }
    if is_raced {
        touch("item 5", true); // race: ring
    }
    taker.join().unwrap();
}

/// A table that is replaced as a whole under a lock with readers. If there is a race, it is changed in its place.
fn snapshot(is_raced: bool) {
    let newest = Arc::new(RwLock::new(Arc::new(String::from("table 0"))));
    let look = |newest: &RwLock<Arc<String>>| {
        let held = newest.read().unwrap();
        touch("newest", false);
        held.clone()
    };
    let publish = |newest: &RwLock<Arc<String>>, name: &str| {
        touch(name, true);
        let mut held = newest.write().unwrap();
        touch("newest", true);
        *held = Arc::new(name.into());
    };
    publish(&newest, "table 1");
    let own = newest.clone();
    let readers = many(3, move |_| {
        for _ in 0..4 {
            touch(&look(&own), false);
        }
    });
    publish(&newest, "table 2");
    join(readers);
    publish(&newest, "table 3");
    let own = newest.clone();
    let last = thread::spawn(move || {
        touch(&look(&own), false); // race: snapshot
    });
    if is_raced {
        touch("table 3", true); // race: snapshot
    }
    last.join().unwrap();
}

struct Node {
    item: String,
    next: *mut Node,
}

/// A stack without a lock. What was pushed is changed once more if there is a race.
fn stack(is_raced: bool) {
    static TOP: AtomicPtr<Node> = AtomicPtr::new(ptr::null_mut());
    let taker = thread::spawn(|| {
        for _ in 0..4 {
            let taken = loop {
                let top = TOP.load(Ordering::Acquire);
                // SAFETY: this thread alone takes nodes, so the top is there as long as it looks.
                let next = unsafe { top.as_ref() }.map(|node| node.next);
                match next {
                    Some(next) if TOP.compare_exchange(top, next, Ordering::AcqRel, Ordering::Relaxed).is_ok() => break top,
                    _ => thread::yield_now(),
                }
            };
            // SAFETY: it was made by `into_raw`, and nobody else has it any more.
            let node = unsafe { Box::from_raw(taken) };
            touch(&node.item, false); // race: stack
        }
    });
    for number in 0..4 {
        let item = format!("item {number}");
        touch(&item, true);
        let made = Box::into_raw(Box::new(Node { item, next: TOP.load(Ordering::Relaxed) }));
        // SAFETY: nobody else has the node before it is the top.
        while let Err(top) = TOP.compare_exchange(unsafe { (*made).next }, made, Ordering::Release, Ordering::Relaxed) {
            unsafe { (*made).next = top };
        }
    }
    if is_raced {
        touch("item 3", true); // race: stack
    }
    taker.join().unwrap();
}

/// A value that is made once, by a look without the lock and one under it. If there is a race, it is told to be there too early.
fn double_checked(is_raced: bool) {
    static IS_THERE: AtomicBool = AtomicBool::new(false);
    static LOCK: Mutex<()> = Mutex::new(());
    let get = || {
        if !IS_THERE.load(Ordering::Acquire) {
            let _held = LOCK.lock().unwrap();
            if !IS_THERE.load(Ordering::Acquire) {
                touch("config", true);
                IS_THERE.store(true, Ordering::Release);
            }
        }
        touch("config", false); // race: double_checked
    };
    if !is_raced {
        join(many(4, move |_| get()));
        return;
    }
    let (told, is_told) = plain::channel();
    let (read, is_read) = plain::channel();
    let maker = thread::spawn(move || {
        let _held = LOCK.lock().unwrap();
        IS_THERE.store(true, Ordering::Release);
        told.send(()).unwrap();
        is_read.recv().unwrap();
        touch("config", true); // race: double_checked
    });
    is_told.recv().unwrap();
    thread::spawn(get).join().unwrap();
    read.send(()).unwrap();
    maker.join().unwrap();
}

/// A balance that one thread alone touches. It is asked by a channel, and answers by another one.
fn actor(is_raced: bool) {
    let (ask, questions) = channel::<(usize, SyncSender<usize>)>();
    let owner = thread::spawn(move || {
        let mut balance = 0;
        for (amount, answer) in questions {
            touch("balance", false);
            touch("balance", true); // race: actor
            balance += amount;
            answer.send(balance).unwrap();
        }
    });
    let clients = (0..3)
        .map(|_| {
            let ask = ask.clone();
            thread::spawn(move || {
                for _ in 0..3 {
                    let (answer, answered) = sync_channel(1);
                    ask.send((1, answer)).unwrap();
                    answered.recv().unwrap();
                }
            })
        })
        .collect();
    if is_raced {
        touch("balance", false); // race: actor
    }
    join(clients);
    drop(ask);
    owner.join().unwrap();
    touch("balance", false);
}

/// A permit that is made of a lock and a condition. A thief has none.
fn permits(is_raced: bool) {
    let free = Arc::new((Mutex::new(1), Condvar::new()));
    let own = free.clone();
    let mut threads = many(3, move |_| {
        let (count, released) = &*own;
        let mut held = released.wait_while(count.lock().unwrap(), |count| *count == 0).unwrap();
        *held -= 1;
        drop(held);
        touch("connection", true); // race: permits
        *count.lock().unwrap() += 1;
        released.notify_one();
    });
    if is_raced {
        threads.push(thread::spawn(|| touch("connection", true))); // race: permits
    }
    join(threads);
    assert_eq!(*free.0.lock().unwrap(), 1);
}

/// A latch that is made of a lock and a condition. Whoever waits for it reads what all have written.
fn latch(is_raced: bool) {
    let left = Arc::new((Mutex::new(3), Condvar::new()));
    let own = left.clone();
    let held = left.0.lock().unwrap(); // Nobody counts down before it waits. So the lock is known for one of a condition.
    let mut threads = many(3, move |number| {
        touch(&format!("cell {number}"), true); // race: latch
        *own.0.lock().unwrap() -= 1;
        own.1.notify_all();
    });
    if is_raced {
        threads.push(thread::spawn(|| touch("cell 1", false))); // race: latch
    }
    drop(left.1.wait_while(held, |left| *left > 0).unwrap());
    (0..3).for_each(|number| touch(&format!("cell {number}"), false));
    join(threads);
}

/// A map of several parts, each with a lock of its own. One takes the lock of another part if there is a race.
fn shards(is_raced: bool) {
    let locks: Arc<Vec<Mutex<usize>>> = Arc::new((0..3).map(|_| Mutex::new(0)).collect());
    let own = locks.clone();
    let mut threads = many(4, move |number| {
        for part in 0..3 {
            let part = (part + number) % 3;
            let mut held = own[part].lock().unwrap();
            touch(&format!("part {part}"), false);
            touch(&format!("part {part}"), true); // race: shards
            *held += 1;
        }
    });
    threads.push(thread::spawn(move || {
        let held = locks[usize::from(is_raced)].lock().unwrap();
        touch("part 0", false); // race: shards
        drop(held);
    }));
    join(threads);
}

/// A worker parks until there is something to do, or nothing more. It is read before the worker is joined if there is a race.
fn quit(is_raced: bool) {
    static IS_OVER: AtomicBool = AtomicBool::new(false);
    let worker = thread::spawn(|| {
        while !IS_OVER.load(Ordering::Acquire) {
            thread::park();
        }
        touch("plan", false);
        touch("tally", true); // race: quit
    });
    touch("plan", true);
    IS_OVER.store(true, Ordering::Release);
    worker.thread().unpark();
    if is_raced {
        touch("tally", false); // race: quit
    }
    worker.join().unwrap();
    touch("tally", false);
}

/// Threads of a scope give values, each of which is read behind its join.
fn scoped(is_raced: bool) {
    let cells = ["first", "second", "third"];
    thread::scope(|scope| {
        let threads: Vec<_> = cells
            .iter()
            .map(|cell| {
                scope.spawn(move || {
                    touch(cell, true); // race: scoped
                    cell.len()
                })
            })
            .collect();
        if is_raced {
            touch("third", false); // race: scoped
        }
        let sum: usize = threads.into_iter().map(|thread| thread.join().unwrap()).sum();
        assert_eq!(sum, 16);
        touch("first", false);
    });
    touch("third", false);
}

/// A lock that spins. It is released by an order that tells nothing if there is a race.
fn spin(is_raced: bool) {
    static IS_HELD: AtomicBool = AtomicBool::new(false);
    let release = if is_raced { Ordering::Relaxed } else { Ordering::Release };
    join(many(2, move |_| {
        for _ in 0..3 {
            while IS_HELD.compare_exchange_weak(false, true, Ordering::Acquire, Ordering::Relaxed).is_err() {
                thread::yield_now();
            }
            touch("count", true); // race: spin
            IS_HELD.store(false, release);
        }
    }));
}
