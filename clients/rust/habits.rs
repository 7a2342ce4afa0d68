//! More programs of services, as those of scenarios.rs: what they do about time, about their beginning and about their end.

use super::{join, many, Program};
use itc_trace::sync::atomic::{AtomicBool, AtomicUsize, Ordering};
use itc_trace::sync::mpsc::{channel, sync_channel, Sender};
use itc_trace::sync::{Arc, Condvar, Mutex, OnceLock, RwLock};
use itc_trace::{thread, touch};
use std::collections::HashMap;
use std::sync::Barrier as PlainBarrier;
use std::time::Duration;

pub const PROGRAMS: [(&str, Program); 13] = [
    ("expiry", expiry),
    ("bucket", bucket),
    ("subscribers", subscribers),
    ("drained", drained),
    ("backoff", backoff),
    ("singleton", singleton),
    ("counted", counted),
    ("sessions", sessions),
    ("flusher", flusher),
    ("leased", leased),
    ("upgrade", upgrade),
    ("chunks", chunks),
    ("pill", pill),
];

/// A cache whose entries one takes out from time to time, without the lock if there is a race.
fn expiry(is_raced: bool) {
    let entries = Arc::new(Mutex::new(HashMap::from([("apple", 3)])));
    let (quit, asked) = channel();
    let own = entries.clone();
    let janitor = thread::spawn(move || {
        while asked.recv_timeout(Duration::from_micros(200)).is_err() {
            let mut held = own.lock().unwrap();
            touch("entries", true);
            held.remove("apple");
        }
        let held = if is_raced { None } else { Some(own.lock().unwrap()) };
        touch("entries", true); // race: expiry
        drop(held);
    });
    let own = entries.clone();
    quit.send(()).unwrap();
    let readers = many(3, move |_| {
        for _ in 0..4 {
            let held = own.lock().unwrap();
            touch("entries", false); // race: expiry
            drop(held);
        }
    });
    join(readers);
    janitor.join().unwrap();
}

/// Permits are given at a rate. Who has one counts under a lock. Behind the last permit all count without it if there is a race.
fn bucket(is_raced: bool) {
    let (filler, permits) = sync_channel(2);
    let permits = Arc::new(Mutex::new(permits));
    let passed = Arc::new(Mutex::new(0));
    let filling = thread::spawn(move || {
        touch("rate", true);
        for number in 0..9 {
            thread::sleep(Duration::from_micros(100));
            filler.send(number).unwrap();
        }
    });
    let callers = many(3, move |_| {
        while permits.lock().unwrap().recv().is_ok() {
            touch("rate", false);
            let mut passed = passed.lock().unwrap();
            touch("passed", true);
            *passed += 1;
        }
        if is_raced {
            touch("late", true); // race: bucket
        }
    });
    filling.join().unwrap();
    join(callers);
    touch("passed", false);
}

/// Each subscriber has a channel of its own. Who publishes changes the last message afterwards if there is a race.
fn subscribers(is_raced: bool) {
    let inboxes: Arc<Mutex<Vec<Sender<String>>>> = Arc::default();
    let (is_in, ready) = channel();
    let threads: Vec<_> = (0..3)
        .map(|_| {
            let (inboxes, is_in) = (inboxes.clone(), is_in.clone());
            thread::spawn(move || {
                let (inbox, messages) = channel();
                inboxes.lock().unwrap().push(inbox);
                is_in.send(()).unwrap();
                drop(inboxes);
                for message in messages {
                    touch(&message, false); // race: subscribers
                }
            })
        })
        .collect();
    (0..3).for_each(|_| ready.recv().unwrap());
    for turn in 0..3 {
        let message = format!("message {turn}");
        touch(&message, true);
        inboxes.lock().unwrap().iter().for_each(|inbox| inbox.send(message.clone()).unwrap());
    }
    if is_raced {
        touch("message 2", true); // race: subscribers
    }
    inboxes.lock().unwrap().clear();
    join(threads);
}

/// A server that takes no more requests, and waits for those that it has. It does not wait if there is a race.
fn drained(is_raced: bool) {
    let state = Arc::new((Mutex::new(4), Condvar::new()));
    let is_begun = Arc::new(PlainBarrier::new(5)); // Of the standard library: it only has all of them be there at once.
    let (own, begun) = (state.clone(), is_begun.clone());
    let requests = many(4, move |number| {
        begun.wait();
        touch(&format!("request {number}"), true); // race: drained
        *own.0.lock().unwrap() -= 1;
        own.1.notify_all();
    });
    is_begun.wait();
    if !is_raced {
        let left = state.1.wait_while(state.0.lock().unwrap(), |left| *left > 0).unwrap();
        drop(left);
    }
    (0..4).for_each(|number| touch(&format!("request {number}"), false)); // race: drained
    join(requests);
}

/// Another attempt is made after a while, until it goes well. An earlier one still goes on if there is a race.
fn backoff(is_raced: bool) {
    let late = is_raced.then(|| thread::spawn(|| touch("connection", true))); // race: backoff
    let mut pause = Duration::from_micros(100);
    for attempt in 1.. {
        let answer = thread::spawn(move || {
            touch("connection", true); // race: backoff
            if attempt < 3 {
                Err("refused")
            } else {
                Ok(attempt)
            }
        });
        if answer.join().unwrap().is_ok() {
            break;
        }
        thread::sleep(pause);
        pause *= 2;
    }
    late.into_iter().for_each(|late| late.join().unwrap());
    touch("connection", false);
}

/// Whoever needs it first makes it. One looks at it who has not asked for it if there is a race.
fn singleton(is_raced: bool) {
    static SETTINGS: OnceLock<&str> = OnceLock::new();
    let make = || {
        touch("settings", true); // race: singleton
        "settings"
    };
    let users = many(4, move |_| {
        for _ in 0..3 {
            touch(SETTINGS.get_or_init(make), false);
        }
    });
    if is_raced {
        touch("settings", false); // race: singleton
    }
    join(users);
    touch(SETTINGS.get().unwrap(), false);
}

/// The last user takes the resource away. If there is a race, the first one does, before it counts.
fn counted(is_raced: bool) {
    let users = Arc::new(AtomicUsize::new(4));
    let are_in = Arc::new(PlainBarrier::new(4)); // Of the standard library: it only has all of them be there at once.
    join(many(4, move |number| {
        are_in.wait();
        if is_raced && number == 0 {
            touch("resource", true); // race: counted
        } else {
            touch("resource", false); // race: counted
        }
        let is_last = users.fetch_sub(1, Ordering::AcqRel) == 1;
        if is_last && !is_raced {
            touch("resource", true);
        }
    }));
}

/// A session is made once for each name. Two share one that both change if there is a race.
fn sessions(is_raced: bool) {
    let known: Arc<RwLock<HashMap<String, String>>> = Arc::default();
    join(many(4, move |number| {
        let name = if is_raced { "session".to_owned() } else { format!("session {number}") };
        let is_there = known.read().unwrap().contains_key(&name);
        if !is_there {
            let mut entries = known.write().unwrap();
            touch("entries", true);
            entries.entry(name.clone()).or_insert_with(|| name.clone());
        }
        let own = known.read().unwrap()[&name].clone();
        if is_raced {
            touch("last use", true); // race: sessions
        } else {
            touch(&own, true);
        }
    }));
}

/// One writes what others have put into a buffer, once it is full or all are done. Its tail is read too early if there is a race.
fn flusher(is_raced: bool) {
    let state = Arc::new((Mutex::new((0, false)), Condvar::new()));
    let own = state.clone();
    let writer = thread::spawn(move || {
        let mut buffer = own.0.lock().unwrap();
        loop {
            buffer = own.1.wait_timeout_while(buffer, Duration::from_secs(9), |(count, is_done)| *count < 3 && !*is_done).unwrap().0;
            touch("buffer", true);
            buffer.0 = 0;
            if buffer.1 {
                break;
            }
        }
        drop(buffer);
        touch("tail", true); // race: flusher
    });
    let own = state.clone();
    join(many(3, move |_| {
        for _ in 0..4 {
            let mut buffer = own.0.lock().unwrap();
            touch("buffer", true);
            buffer.0 += 1;
            own.1.notify_one();
        }
    }));
    state.0.lock().unwrap().1 = true;
    state.1.notify_all();
    if is_raced {
        touch("tail", false); // race: flusher
    }
    writer.join().unwrap();
    touch("tail", false);
}

/// Connections of which each is one user's at a time. All go on behind giving theirs back if there is a race.
fn leased(is_raced: bool) {
    let idle = Arc::new((Mutex::new(vec!["connection 0", "connection 1"]), Condvar::new()));
    join(many(4, move |_| {
        for _ in 0..3 {
            let own = idle.1.wait_while(idle.0.lock().unwrap(), |idle| idle.is_empty()).unwrap().pop().unwrap();
            touch(own, true);
            idle.0.lock().unwrap().push(own);
            idle.1.notify_one();
        }
        if is_raced {
            touch("last use", true); // race: leased
        }
    }));
}

/// Readers look, and look again as writers. They write under the lock of readers if there is a race.
fn upgrade(is_raced: bool) {
    let value = Arc::new(RwLock::new(0));
    let are_in = Arc::new(PlainBarrier::new(4)); // Of the standard library: it only has all of them be there at once.
    join(many(4, move |_| {
        let seen = value.read().unwrap();
        are_in.wait();
        touch("value", false); // race: upgrade
        if is_raced {
            touch("value", true); // race: upgrade
        }
        drop(seen);
        if !is_raced {
            let mut value = value.write().unwrap();
            touch("value", true);
            *value += 1;
        }
    }));
}

/// Workers of a scope take chunks by a counter. One is read too early if there is a race.
fn chunks(is_raced: bool) {
    let next = AtomicUsize::new(0);
    let is_begun = AtomicBool::new(false);
    thread::scope(|scope| {
        for _ in 0..3 {
            scope.spawn(|| {
                is_begun.store(true, Ordering::Release);
                loop {
                    let number = next.fetch_add(1, Ordering::Relaxed);
                    if number >= 8 {
                        break;
                    }
                    touch(&format!("chunk {number}"), true); // race: chunks
                }
            });
        }
        if is_raced {
            touch("chunk 7", false); // race: chunks
        }
    });
    (0..8).for_each(|number| touch(&format!("chunk {number}"), false));
}

/// Stages that end by a pill. The last item is read too early if there is a race.
fn pill(is_raced: bool) {
    let (raw, items) = sync_channel(2);
    let (done, results) = channel();
    let stage = thread::spawn(move || {
        while let Ok(Some(item)) = items.recv() {
            touch(item, true); // race: pill
            done.send(item).unwrap();
        }
    });
    for item in ["apple", "pear", "plum"] {
        touch(item, true);
        raw.send(Some(item)).unwrap();
    }
    if is_raced {
        touch("plum", false); // race: pill
    }
    raw.send(None).unwrap();
    results.iter().for_each(|item| touch(item, false));
    stage.join().unwrap();
}
