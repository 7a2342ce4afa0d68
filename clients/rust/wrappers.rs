//! Small programs, each for one order that is reported by itself. A line that races says so in a comment, with the name of its program:
//! clients/wrappers.py looks whether these lines are listed, and no others.
//!
//! Usage: cargo run --example wrappers NAME [WORDS]..

mod primitives;
mod web_programs;

use itc_trace::sync::mpsc::{channel, sync_channel, Receiver, Sender, TryRecvError};
use itc_trace::sync::{Condvar, Mutex, RwLock};
use itc_trace::{incoming, outgoing, thread, touch, touch_across, Error, Reporter};
use std::collections::HashMap;
use std::path::Path;
use std::sync::{self as plain_sync, mpsc as plain_mpsc, Arc};
use std::time::Duration;
use std::{fs, iter, panic, thread as plain};

const MANY: usize = 100_000;
const FEW: usize = 3_000;
const SOME: usize = 1_000;
/// More than a trace has room for.
const TURNS: usize = 20_000;
/// Names of tasks: too long, the same again, without letters, and those of tasks that are there already.
const ODD: [&str; 7] = [LONG, LONG, "", "_", "ü 1-2", "root", "others"];
const LONG: &str = "aaaaaaaaaaaaaaaaaaaaaaaaaaaaaaaaaaaaaaaaaaaaaaaaaaaaaaaaaaaa";
const ODD_THING: &str = "\"naïve\"\t\\ 😀";

fn read_stock() {
    touch("stock", false); // race: after_hand_off before_end
}

fn write_stock() {
    touch("stock", true); // race: after_hand_off before_end read_lock_race
}

fn sell() {
    touch("stock", false); // race: lost_update plain_threads
    touch("stock", true); // race: lost_update plain_threads
}

fn in_two_threads(body: impl Fn() + Send + Sync + 'static) {
    let body = Arc::new(body);
    let threads = ["alice", "bob"].map(|name| {
        let body = body.clone();
        thread::spawn_named(name, move || body()).unwrap()
    });
    threads.into_iter().for_each(|thread| thread.join().unwrap());
    touch("stock", true);
}

fn plain_threads() {
    let sell_and_note = || {
        sell();
        (0..2).for_each(|_| touch(&format!("note {:?}", plain::current().id()), true));
        // Both are of one task.
    };
    let threads = [plain::spawn(sell_and_note), plain::spawn(sell_and_note)];
    threads.into_iter().for_each(|thread| thread.join().unwrap());
}

fn locked() {
    let lock = Mutex::new(());
    in_two_threads(move || {
        let _held = lock.lock().unwrap();
        sell();
    });
    lock_turns(TURNS); // A lock that nobody else acquires leaves nothing in the trace.
    crossed_locks();
    let written = Arc::new(Mutex::new(()));
    let other = written.clone();
    thread::spawn(move || {
        let _held = other.lock().unwrap();
        touch("value", true); // possible: locked
    });
    while Arc::strong_count(&written) > 1 {
        plain::sleep(Duration::from_millis(1));
    }
    Arc::into_inner(written).unwrap().into_inner().unwrap();
    touch("value", true); // possible: locked
}

/// A lock that is released before one that was acquired later is meant to hand something over.
fn crossed_locks() {
    let (first, second) = (Arc::new(Mutex::new(())), Mutex::new(()));
    let other = first.clone();
    thread::spawn(move || {
        touch("crossed", true);
        let held = other.lock().unwrap();
        let _later = second.lock().unwrap();
        drop(held);
    });
    while Arc::strong_count(&first) > 1 {
        plain::sleep(Duration::from_millis(1));
    }
    drop(first.lock());
    touch("crossed", true);
}

/// Two threads acquire one lock by turns.
fn contended() {
    let lock = Mutex::new(());
    in_two_threads(move || {
        for _ in 0..SOME {
            let _held = lock.lock().unwrap();
            touch("stock", true);
        }
    });
}

fn tried_lock() {
    let lock = Mutex::new(());
    in_two_threads(move || {
        let _held = iter::repeat_with(|| lock.try_lock()).find_map(Result::ok);
        touch("stock", true);
    });
}

fn odd_names() {
    for name in ODD {
        thread::spawn_named(name, || touch(ODD_THING, true)).unwrap().join().unwrap();
    }
}

/// Each other way to receive, and to wait.
fn other_calls() {
    let ways: [fn(&Receiver<usize>); 4] = [
        |receiver| while receiver.try_recv().is_err() {},
        |receiver| while receiver.try_iter().next().is_none() {},
        |receiver| assert_eq!(receiver.recv_timeout(Duration::from_secs(60)), Ok(1)),
        |receiver| assert_eq!(receiver.iter().next(), Some(1)),
    ];
    for (way, (sender, receiver)) in ways.into_iter().map(|way| (way, sync_channel(1))) {
        let taker = thread::spawn(move || {
            way(&receiver);
            read_stock();
        });
        write_stock();
        sender.try_send(1).unwrap();
        taker.join().unwrap();
    }
    failed_tries();
    poisoned();
    timed_out();
    waited_while();
    tried_to_read();
}

/// What was not sent leaves nothing in the trace: these tries would fill it.
fn failed_tries() {
    let (sender, receiver) = sync_channel(1);
    sender.send(0).unwrap();
    for turn in 0..MANY {
        sender.try_send(turn).unwrap_err();
        touch("stock", false);
    }
    drop(receiver);
    let (unbounded, receiver) = channel();
    drop(receiver);
    for turn in 0..TURNS {
        sender.send(turn).unwrap_err();
        touch("stock", false);
        unbounded.send(turn).unwrap_err();
        touch("stock", false);
    }
}

/// Who reads comes after who has written, by whichever call.
fn tried_to_read() {
    let lock = Arc::new(RwLock::new(1));
    let other = lock.clone();
    let mut written = lock.try_write().unwrap();
    let reading = thread::spawn(move || {
        let tried = iter::repeat_with(|| other.try_read());
        let _held = tried.filter_map(Result::ok).find(|value| **value == 2);
        read_stock();
    });
    write_stock();
    *written = 2;
    drop(written);
    reading.join().unwrap();
}

/// A thread that panics ends, and releases its lock.
fn poisoned() {
    let lock = Arc::new(Mutex::new(1));
    let other = lock.clone();
    let panicking = thread::spawn(move || {
        let _held = other.lock();
        write_stock();
        panic::resume_unwind(Box::new("a lock is poisoned on purpose"));
    });
    while !lock.is_poisoned() {
        plain::sleep(Duration::from_millis(1));
    }
    let held = lock.lock().unwrap_err().into_inner();
    read_stock();
    drop(held);
    panicking.join().unwrap_err();
    let panicking = thread::spawn(|| {
        write_stock();
        panic::resume_unwind(Box::new("a thread ends on purpose"));
    });
    panicking.join().unwrap_err();
    read_stock();
}

fn timed_out() {
    let shared = Arc::new((Mutex::new(false), Condvar::new()));
    let other = shared.clone();
    let waiting = thread::spawn(move || {
        let mut is_ready = other.0.lock().unwrap();
        while !*is_ready {
            is_ready = other.1.wait_timeout(is_ready, Duration::from_millis(10)).unwrap().0;
        }
        read_stock();
    });
    let mut is_ready = shared.0.lock().unwrap();
    write_stock();
    *is_ready = true;
    drop(is_ready);
    waiting.join().unwrap();
}

fn waited_while() {
    let shared = Arc::new((Mutex::new(false), Condvar::new()));
    let other = shared.clone();
    let waiting = thread::spawn(move || {
        let is_ready = other.0.lock().unwrap();
        drop(other.1.wait_while(is_ready, |is_ready| !*is_ready).unwrap());
        read_stock();
    });
    plain::sleep(Duration::from_millis(50)); // The other one waits already.
    write_stock();
    *shared.0.lock().unwrap() = true;
    shared.1.notify_all();
    waiting.join().unwrap();
}

/// One thread is done with the stock before it acquires the lock, and the other one had it before.
fn lucky_lock() {
    let lock = Arc::new(Mutex::new(()));
    let other = lock.clone();
    thread::spawn(move || {
        touch("stock", true); // possible: lucky_lock
        drop(other.lock());
    });
    while Arc::strong_count(&lock) > 1 {
        plain::sleep(Duration::from_millis(1)); // The thread lets go of its share when it is done, which is no order that is reported.
    }
    drop(lock.lock());
    touch("stock", true); // possible: lucky_lock
}

/// The lock is known for one of a condition from the first time on that somebody waits.
fn condition() {
    let shared = Arc::new((Mutex::new((false, false)), Condvar::new()));
    let other = shared.clone();
    let waiting = thread::spawn(move || {
        let mut state = other.0.lock().unwrap();
        write_stock();
        state.0 = true;
        while !state.1 {
            state = other.1.wait(state).unwrap();
        }
        drop(state);
        read_stock();
    });
    while !shared.0.lock().unwrap().0 {
        plain::sleep(Duration::from_millis(1));
    }
    let mut state = shared.0.lock().unwrap();
    write_stock();
    state.1 = true;
    drop(state);
    shared.1.notify_all();
    waiting.join().unwrap();
}

fn hand_off(is_touched_after: bool) {
    let (sender, receiver) = channel();
    let taker = thread::spawn(move || {
        receiver.recv().unwrap();
        read_stock();
    });
    if !is_touched_after {
        write_stock();
    }
    drop(Mutex::new(()).lock()); // The release of a lock and the item are two messages.
    sender.send(1).unwrap();
    if is_touched_after {
        write_stock();
        one_sender_ends();
    }
    taker.join().unwrap();
}

/// Whoever sees that no message is there has not seen the end of one sender, if there is another one.
fn one_sender_ends() {
    let (sender, receiver) = channel::<usize>();
    let (other, (done, is_done)) = (sender.clone(), plain_mpsc::channel());
    thread::spawn(move || {
        touch("other", true); // race: after_hand_off
        drop(other);
        done.send(()).unwrap();
    });
    is_done.recv().unwrap(); // That is no order that is reported.
    assert_eq!(receiver.try_recv(), Err(TryRecvError::Empty));
    touch("other", false); // race: after_hand_off
    drop(sender);
}

/// Without room in the channel, the sender comes after the receipt.
fn rendezvous() {
    let (sender, receiver) = sync_channel(0);
    let taker = thread::spawn(move || {
        write_stock();
        receiver.recv().unwrap();
    });
    sender.send(1).unwrap();
    read_stock();
    taker.join().unwrap();
}

/// Who sees the end of a channel comes after the end of each sender, and not only after what was sent.
fn closed_channel() {
    let ways: [fn(Receiver<usize>); 4] = [
        |receiver| assert_eq!(receiver.into_iter().sum::<usize>(), 2),
        |receiver| assert_eq!((&receiver).into_iter().count(), 2),
        |receiver| while receiver.recv_timeout(Duration::from_secs(60)).is_ok() {},
        |receiver| while receiver.try_recv() != Err(TryRecvError::Disconnected) {},
    ];
    for way in ways {
        let (sender, receiver) = channel();
        for (thing, sender) in [("first", sender.clone()), ("second", sender)] {
            thread::spawn(move || {
                sender.send(1).unwrap();
                touch(thing, true);
            });
        }
        way(receiver);
        touch("first", true);
        touch("second", true);
    }
    let (sender, receiver) = sync_channel::<usize>(1);
    for (thing, sender) in [("first", sender.clone()), ("second", sender)] {
        thread::spawn(move || {
            touch(thing, true);
            drop(sender);
        });
    }
    receiver.recv().unwrap_err();
    touch("first", true);
    touch("second", true);
}

fn before_end() {
    let thread = thread::spawn(write_stock);
    read_stock();
    thread.join().unwrap();
}

fn scope() {
    let mut own = 1;
    thread::scope(|scope| {
        scope.spawn(write_stock);
        scope.spawn(|| own += 1);
        scope.spawn(|| touch("joined", true)).join().unwrap();
        touch("joined", true);
    });
    write_stock();
    assert_eq!(own, 2);
}

fn read_lock(is_written_by_both: bool) {
    let lock = Arc::new(RwLock::new(()));
    in_two_threads(move || {
        if is_written_by_both {
            let _held = lock.read().unwrap();
            write_stock();
            plain::sleep(Duration::from_millis(200)); // Both hold the lock at once.
        } else {
            let writing = lock.write().unwrap();
            write_stock();
            drop(writing);
            let _held = lock.read().unwrap();
            read_stock();
        }
    });
}

/// One thread reads under the lock before the other one writes under it.
fn read_first() {
    let lock = Arc::new(RwLock::new(()));
    let other = lock.clone();
    thread::spawn(move || {
        let _held = other.read().unwrap();
        read_stock();
    });
    while Arc::strong_count(&lock) > 1 {
        plain::sleep(Duration::from_millis(1));
    }
    let _held = lock.write().unwrap();
    write_stock();
}

/// One thread writes and reads under the lock, and then touches the stock. Who reads under the lock comes after the writing, and not after
/// what the writer does next.
fn writer_goes_on() {
    let lock = Arc::new(RwLock::new(()));
    let other = lock.clone();
    thread::spawn(move || {
        drop(other.write().unwrap());
        drop(other.read().unwrap());
        touch("stock", true); // race: writer_goes_on
    });
    while Arc::strong_count(&lock) > 1 {
        plain::sleep(Duration::from_millis(1));
    }
    let _held = lock.read().unwrap();
    touch("stock", false); // race: writer_goes_on
}

fn many() {
    in_two_threads(|| (0..MANY).for_each(|_| touch(&format!("own {:?}", plain::current().id()), true)));
}

/// Somebody may come after each of the places where something is sent.
fn filling() {
    let (sender, _receiver) = channel();
    for turn in 0..TURNS {
        sender.send(turn).unwrap();
        touch("stock", true);
    }
}

fn lock_turns(turns: usize) {
    let lock = Mutex::new(());
    for _ in 0..turns {
        let _held = lock.lock().unwrap();
        touch("stock", true);
    }
}

/// Two threads acquire one lock by turns. What hands the turns on is no order that is reported.
fn lock_handed() {
    let lock = Arc::new(Mutex::new(()));
    let (first, second) = (plain_mpsc::channel(), plain_mpsc::channel());
    first.0.send(()).unwrap();
    let threads = [(first.1, second.0), (second.1, first.0)].map(|(own, others)| {
        let lock = lock.clone();
        thread::spawn(move || {
            for _ in 0..FEW / 2 {
                own.recv().unwrap();
                let held = lock.lock().unwrap();
                touch("stock", true);
                drop(held);
                let _ = others.send(()); // The last turn is handed to nobody.
            }
        })
    });
    threads.into_iter().for_each(|thread| thread.join().unwrap());
}

fn channel_turns() {
    let (sender, receiver) = channel();
    let (done, is_done) = plain_mpsc::channel();
    let taker = thread::spawn(move || {
        receiver.iter().for_each(|_: usize| {
            touch("stock", true);
            done.send(()).unwrap();
        });
    });
    for turn in 0..FEW {
        touch("item", true);
        sender.send(turn).unwrap();
        is_done.recv().unwrap();
    }
    drop(sender);
    taker.join().unwrap();
}

fn across() {
    touch_across("row", false); // race: across
    touch_across("row", true); // race: across
    touch("own \"row\"", true);
}

/// A second task of this process, and what both do.
fn by_hand() -> Result<(), Error> {
    let reporter = Reporter::from_environment()?.unwrap();
    let (own, child, message) = (reporter.task.clone(), reporter.name("child"), reporter.name("message"));
    reporter.spawn(&own, &child)?;
    reporter.touch(&child, "stock", true)?; // race: by_hand
    reporter.touch(&own, "stock", false)?; // race: by_hand
    reporter.touch_across(&own, "row", true)?;
    reporter.send(&own, &message)?;
    reporter.recv(&child, &message)?;
    reporter.touch_across(&child, "row", true)?;
    reporter.end(&child)?;
    reporter.join(&own, &child)?;
    reporter.touch(&own, "stock", true)?;
    reporter.close()
}

/// The steps of a file are done one after the other, each in its own thread. What hands them on is no order that is reported.
#[derive(Default)]
struct Steps {
    inboxes: HashMap<String, plain_mpsc::Sender<Vec<String>>>,
    shared: Arc<Shared>,
}

struct Shared {
    threads: plain_sync::Mutex<HashMap<String, thread::JoinHandle<()>>>,
    fresh: plain_sync::Mutex<HashMap<String, plain_mpsc::Receiver<Vec<String>>>>,
    done: plain_sync::Mutex<Option<plain_mpsc::Sender<()>>>,
    locks: [&'static Mutex<()>; 2],
    read_locks: [&'static RwLock<()>; 2],
    queues: [(Sender<usize>, plain_sync::Mutex<Receiver<usize>>); 2],
}

impl Default for Shared {
    fn default() -> Shared {
        let queue = || {
            let (sender, receiver) = channel();
            (sender, plain_sync::Mutex::new(receiver))
        };
        Shared {
            threads: Default::default(),
            fresh: Default::default(),
            done: Default::default(),
            locks: [Box::leak(Box::new(Mutex::new(()))), Box::leak(Box::new(Mutex::new(())))],
            read_locks: [Box::leak(Box::new(RwLock::new(()))), Box::leak(Box::new(RwLock::new(())))],
            queues: [queue(), queue()],
        }
    }
}

/// The locks that a thread holds, by the step that gives them back.
type Held = HashMap<String, Box<dyn std::any::Any>>;

impl Steps {
    fn run(mut self, file: &Path) {
        let (done, is_done) = plain_mpsc::channel();
        *self.shared.done.lock().unwrap() = Some(done);
        let mut held = Held::new();
        for line in fs::read_to_string(file).unwrap().lines() {
            let words: Vec<String> = line.split(' ').map(String::from).collect();
            if words[1] == "spawn" {
                let (inbox, steps) = plain_mpsc::channel();
                self.inboxes.insert(words[2].clone(), inbox);
                self.shared.fresh.lock().unwrap().insert(words[2].clone(), steps);
            }
            match (words[0].as_str(), words[1].as_str()) {
                (task, "end") => drop(self.inboxes.remove(task)),
                ("main", _) => self.shared.clone().step(&words, &mut held),
                (task, _) => {
                    self.inboxes[task].send(words).unwrap();
                    is_done.recv().unwrap();
                }
            }
        }
    }
}

impl Shared {
    fn step(self: Arc<Shared>, words: &[String], held: &mut Held) {
        let word = &words[2];
        match words[1].as_str() {
            "touch" => touch(word, true),
            "spawn" => {
                let (steps, shared) = (self.fresh.lock().unwrap().remove(word).unwrap(), self.clone());
                let thread = thread::spawn_named(word, move || shared.work(steps)).unwrap();
                self.threads.lock().unwrap().insert(word.clone(), thread);
            }
            "join" => self.join(word),
            operation => self.step_at(operation, word.parse().unwrap(), held),
        }
    }

    fn join(&self, child: &str) {
        let thread = self.threads.lock().unwrap().remove(child).unwrap();
        thread.join().unwrap();
    }

    fn work(self: Arc<Shared>, steps: plain_mpsc::Receiver<Vec<String>>) {
        let mut held = Held::new();
        for words in steps {
            self.clone().step(&words, &mut held);
            self.done.lock().unwrap().as_ref().unwrap().send(()).unwrap();
        }
    }

    fn step_at(&self, operation: &str, place: usize, held: &mut Held) {
        let kind = operation.trim_end_matches("unlock").trim_end_matches("lock");
        let key = format!("{kind}{place}");
        match operation {
            "wait" => plain::sleep(Duration::from_millis(place as u64)),
            "lock" => drop(held.insert(key, Box::new(self.locks[place].lock().unwrap()))),
            "write_lock" => drop(held.insert(key, Box::new(self.read_locks[place].write().unwrap()))),
            "read_lock" => drop(held.insert(key, Box::new(self.read_locks[place].read().unwrap()))),
            "unlock" | "write_unlock" | "read_unlock" => drop(held.remove(&key)),
            "put" => self.queues[place].0.send(place).unwrap(),
            "take" => drop(self.queues[place].1.lock().unwrap().recv()),
            other => panic!("there is no step {other}"),
        }
    }
}

fn receiver(file: &Path) {
    while !file.exists() {
        plain::sleep(Duration::from_millis(10));
    }
    incoming(fs::read_to_string(file).unwrap().trim());
    touch_across("row", true);
}

fn sender(file: &Path) {
    touch_across("row", true);
    let written = file.with_extension("new");
    fs::write(&written, outgoing().unwrap()).unwrap();
    fs::rename(written, file).unwrap();
}

/// One thread is done before the other one begins, and nothing that is reported says so.
fn one_after_another(first: impl FnOnce() + Send + 'static, second: impl FnOnce() + Send + 'static) {
    let (done, is_done) = std::sync::mpsc::channel();
    let first = thread::spawn(move || {
        first();
        done.send(()).unwrap();
    });
    let second = thread::spawn(move || {
        is_done.recv().unwrap();
        second();
    });
    first.join().unwrap();
    second.join().unwrap();
}

/// Two locks are acquired in both orders. With a gate around both, only one thread is there at once.
fn two_orders(has_gate: bool) {
    let locks = Arc::new((Mutex::new(()), Mutex::new(()), Mutex::new(())));
    let others = locks.clone();
    let forth = move || {
        let _gate = has_gate.then(|| locks.0.lock().unwrap());
        let _one = locks.1.lock().unwrap(); // deadlock: two_orders
        let _other = locks.2.lock().unwrap(); // deadlock: two_orders
    };
    let back = move || {
        let _gate = has_gate.then(|| others.0.lock().unwrap());
        let _other = others.2.lock().unwrap(); // deadlock: two_orders
        let _one = others.1.lock().unwrap(); // deadlock: two_orders
    };
    one_after_another(forth, back);
}

/// One thread writes under the lock that the other one reads under, or both read.
fn read_orders(both_read: bool) {
    let locks = Arc::new((RwLock::new(()), Mutex::new(())));
    let others = locks.clone();
    let forth = move || {
        let _table = locks.0.read().unwrap(); // deadlock: read_orders
        let _lock = locks.1.lock().unwrap(); // deadlock: read_orders
    };
    let back = move || {
        let _lock = others.1.lock().unwrap(); // deadlock: read_orders
        if both_read {
            drop(others.0.read().unwrap());
        } else {
            drop(others.0.write().unwrap()); // deadlock: read_orders
        }
    };
    one_after_another(forth, back);
}

/// Two locks are acquired in both orders, and the outer one is released first.
fn crossed_orders() {
    let locks = Arc::new((Mutex::new(()), Mutex::new(())));
    let others = locks.clone();
    let forth = move || {
        let one = locks.0.lock().unwrap(); // deadlock: crossed_orders
        let _other = locks.1.lock().unwrap(); // deadlock: crossed_orders
        drop(one);
    };
    let back = move || {
        let other = others.1.lock().unwrap(); // deadlock: crossed_orders
        let _one = others.0.lock().unwrap(); // deadlock: crossed_orders
        drop(other);
    };
    one_after_another(forth, back);
}

/// Both threads acquire their first lock behind a gate, and their second one without it.
fn gate_let_go() {
    let locks = Arc::new((Mutex::new(()), [Mutex::new(()), Mutex::new(())]));
    let work = |first: usize| {
        let locks = locks.clone();
        move || {
            let gate = locks.0.lock().unwrap();
            let _first = locks.1[first].lock().unwrap(); // deadlock: gate_let_go
            drop(gate);
            let _second = locks.1[1 - first].lock().unwrap(); // deadlock: gate_let_go
        }
    };
    one_after_another(work(0), work(1));
}

/// Each lock is released once the next one is held. Both threads go the same way, or each begins at another end.
fn hand_over_hand(from_both_ends: bool) {
    let locks = Arc::new([Mutex::new(()), Mutex::new(()), Mutex::new(())]);
    let walk = |order: [usize; 3]| {
        let locks = locks.clone();
        move || {
            let mut held = locks[order[0]].lock().unwrap(); // deadlock: both_ends
            for next in &order[1..] {
                let following = locks[*next].lock().unwrap(); // deadlock: both_ends
                drop(std::mem::replace(&mut held, following));
            }
        }
    };
    one_after_another(walk([0, 1, 2]), walk(if from_both_ends { [2, 1, 0] } else { [0, 1, 2] }));
}

/// A thread acquires a lock again that it has released, and holds the one that it acquired in between. It waits for no other thread.
fn acquired_again() {
    let locks = Arc::new((Mutex::new(()), Mutex::new(())));
    let work = || {
        let locks = locks.clone();
        move || {
            let one = locks.0.lock().unwrap();
            let other = locks.1.lock().unwrap();
            drop(one);
            let _one = locks.0.lock().unwrap();
            drop(other);
        }
    };
    one_after_another(work(), work());
}

/// A thread waits at a condition, and holds a lock that it has acquired later. Once it is woken it wants the first one again.
fn wait_orders() {
    let locks = Arc::new((Mutex::new(()), Mutex::new(()), Condvar::new()));
    let others = locks.clone();
    let wait = move || {
        let ready = locks.0.lock().unwrap();
        let inner = locks.1.lock().unwrap(); // deadlock: wait_orders
        let waited = locks.2.wait_timeout(ready, Duration::from_millis(1)).unwrap(); // deadlock: wait_orders
        drop(inner);
        drop(waited);
    };
    let work = move || {
        let _ready = others.0.lock().unwrap(); // deadlock: wait_orders
        let _inner = others.1.lock().unwrap(); // deadlock: wait_orders
    };
    one_after_another(wait, work);
}

/// An item is sent right before a lock with a condition is released. So the two orders of it and of another lock are in order.
fn sent_orders() {
    let locks = Arc::new((Mutex::new(()), Mutex::new(()), Condvar::new()));
    let others = locks.clone();
    let (items, taken) = channel();
    let forth = move || {
        let ready = locks.0.lock().unwrap();
        let ready = locks.2.wait_timeout(ready, Duration::from_millis(1)).unwrap();
        drop(locks.1.lock().unwrap());
        items.send(()).unwrap();
        drop(ready);
    };
    let back = move || {
        drop(others.0.lock().unwrap());
        taken.recv().unwrap();
        let _inner = others.1.lock().unwrap();
        let _ready = others.0.lock().unwrap();
    };
    one_after_another(forth, back);
}

/// A thread gives back what it holds, if it does not get the other lock at once.
fn tried_order() {
    let locks = Arc::new((Mutex::new(()), Mutex::new(())));
    let others = locks.clone();
    let forth = move || {
        let _one = locks.0.lock().unwrap();
        let _other = locks.1.lock().unwrap();
    };
    let back = move || {
        let _other = others.1.lock().unwrap();
        let _one = others.0.try_lock();
    };
    one_after_another(forth, back);
}

fn main() {
    let words: Vec<String> = std::env::args().collect();
    let file = || Path::new(&words[2]);
    let _trace = itc_trace::begin();
    match words[1].as_str() {
        "lost_update" => in_two_threads(sell),
        "two_orders" => two_orders(false),
        "two_orders_gate" => two_orders(true),
        "read_orders" => read_orders(false),
        "read_orders_both" => read_orders(true),
        "tried_order" => tried_order(),
        "crossed_orders" => crossed_orders(),
        "gate_let_go" => gate_let_go(),
        "hand_over_hand" => hand_over_hand(false),
        "both_ends" => hand_over_hand(true),
        "acquired_again" => acquired_again(),
        "wait_orders" => wait_orders(),
        "sent_orders" => sent_orders(),
        "plain_threads" => plain_threads(),
        "locked" => locked(),
        "lucky_lock" => lucky_lock(),
        "contended" => contended(),
        "tried_lock" => tried_lock(),
        "odd_names" => odd_names(),
        "other_calls" => other_calls(),
        "condition" => condition(),
        "hand_off" => hand_off(false),
        "after_hand_off" => hand_off(true),
        "rendezvous" => rendezvous(),
        "closed_channel" => closed_channel(),
        "before_end" => before_end(),
        "scope" => scope(),
        "read_lock" => read_lock(false),
        "read_first" => read_first(),
        "read_lock_race" => read_lock(true),
        "writer_goes_on" => writer_goes_on(),
        "many" => many(),
        "filling" => filling(),
        "lock_turns" => lock_turns(MANY),
        "lock_handed" => lock_handed(),
        "channel_turns" => channel_turns(),
        "across" => across(),
        "by_hand" => by_hand().unwrap(),
        "steps" => Steps::default().run(file()),
        "receiver" => receiver(file()),
        "sender" => sender(file()),
        "primitives" => primitives::run(&words[2], words.get(3).is_some_and(|how| how == "raced")),
        "free_locks" => primitives::free_locks(),
        "ends" => primitives::end(&words[2]),
        "parent" => primitives::parent(&words[2]),
        "kid" => primitives::kid(),
        "stranger" => primitives::stranger(),
        "requests" => web_programs::requests(words[2].parse().unwrap()),
        "web_server" => web_programs::serve(file(), words[3].parse().unwrap(), &words[4]),
        "web_client" => web_programs::ask(file(), &words[3]),
        other => panic!("there is no program {other}"),
    }
    println!("done");
}
