//! For each thing that puts two threads in order: what is done before it is given is in order with what is done after it is taken, and
//! what is done after it was given is not. clients/wrappers.py runs each with and without a race.

use itc_trace::sync::atomic::{AtomicBool, AtomicPtr, AtomicUsize, Ordering};
use itc_trace::sync::mpsc::{channel, sync_channel};
use itc_trace::sync::{Arc, Barrier, Condvar, LazyLock, Mutex, Once, OnceLock, RwLock};
use itc_trace::thread::{self, Builder, JoinHandle};
use itc_trace::{future, incoming, outgoing, process, touch, touch_across, Token};
use std::cell::RefCell;
use std::future::Future;
use std::pin::Pin;
use std::process::{abort, exit, Command};
use std::sync::mpsc as plain_mpsc;
use std::task::{Context, Poll, Wake, Waker};
use std::time::Duration;
use std::{env, hint, ptr, thread as plain};

const OBJECTS: usize = 20_000;
const SECTIONS: usize = 6_000;

fn write() {
    touch("stock", true); // race: raced
}

fn read() {
    touch("stock", false); // race: raced
}

fn giving(is_raced: bool, give: impl FnOnce()) {
    if !is_raced {
        write();
    }
    give();
    if is_raced {
        write();
    }
}

/// One thread gives the order and another one takes it.
fn two(is_raced: bool, give: impl FnOnce() + Send + 'static, take: impl FnOnce() + Send + 'static) {
    let giver = thread::spawn(move || giving(is_raced, give));
    let taker = thread::spawn(move || {
        take();
        read();
    });
    giver.join().unwrap();
    taker.join().unwrap();
}

fn shared<T>(value: T) -> (Arc<T>, Arc<T>) {
    let value = Arc::new(value);
    (value.clone(), value)
}

fn condition(is_raced: bool) {
    let (own, other) = shared((Mutex::new(false), Condvar::new()));
    let give = move || {
        *own.0.lock().unwrap() = true;
        own.1.notify_all();
    };
    two(is_raced, give, move || drop(other.1.wait_while(other.0.lock().unwrap(), |is_ready| !*is_ready).unwrap()));
}

fn timed_condition(is_raced: bool) {
    let (own, other) = shared((Mutex::new(false), Condvar::new()));
    let give = move || {
        *own.0.lock().unwrap() = true;
        own.1.notify_all();
    };
    let take = move || {
        let held = other.0.lock().unwrap();
        let (held, timeout) = other.1.wait_timeout_while(held, Duration::from_secs(60), |is_ready| !*is_ready).unwrap();
        assert!(*held && !timeout.timed_out());
        let (_, timeout) = other.1.wait_timeout_while(held, Duration::from_millis(5), |is_ready| *is_ready).unwrap();
        assert!(timeout.timed_out());
    };
    two(is_raced, give, take);
}

fn read_lock(is_raced: bool) {
    let (own, other) = shared((RwLock::new(0), plain::current()));
    let (given, is_given) = plain_mpsc::channel();
    let give = move || {
        *own.0.write().unwrap() += 1;
        given.send(()).unwrap();
    };
    two(is_raced, give, move || {
        is_given.recv().unwrap();
        assert_eq!(*other.0.read().unwrap(), 1);
    });
}

/// One thread sets a flag under the lock, and the other one looks at it again and again.
fn polled_flag(is_raced: bool) {
    let (own, other) = shared(Mutex::new(false));
    let give = move || {
        let mut flag = own.lock().unwrap();
        touch("flag", true);
        *flag = true;
    };
    let is_set = move || {
        let flag = other.lock().unwrap();
        touch("flag", false);
        *flag
    };
    two(is_raced, give, move || while !is_set() {});
}

/// Whoever comes first makes a value under the lock.
fn lazy_value(is_raced: bool) {
    let (own, other) = shared(Mutex::new(None));
    let (given, is_given) = plain_mpsc::channel();
    let make = |value: &Mutex<Option<usize>>| {
        let mut value = value.lock().unwrap();
        touch("value", false);
        value.get_or_insert_with(|| {
            touch("value", true);
            1
        });
    };
    let give = move || {
        make(&own);
        given.send(()).unwrap();
    };
    two(is_raced, give, move || {
        is_given.recv().unwrap();
        make(&other);
        touch("value", false); // Outside the lock.
    });
}

fn queue(is_raced: bool) {
    let (sender, receiver) = channel();
    two(is_raced, move || sender.send(1).unwrap(), move || assert_eq!(receiver.recv(), Ok(1)));
}

fn bounded_queue(is_raced: bool) {
    let (sender, receiver) = sync_channel(4);
    two(is_raced, move || sender.send(1).unwrap(), move || assert_eq!(receiver.iter().next(), Some(1)));
}

fn receipt(is_raced: bool) {
    let (sender, receiver) = sync_channel(0);
    two(is_raced, move || assert_eq!(receiver.recv(), Ok(1)), move || sender.send(1).unwrap());
}

fn barrier(is_raced: bool) {
    let (own, other) = shared(Barrier::new(2));
    let give = move || {
        own.wait();
    };
    two(is_raced, give, move || {
        other.wait();
    });
}

fn once(is_raced: bool) {
    static ONCE: Once = Once::new();
    two(is_raced, || ONCE.call_once(|| {}), || while !ONCE.is_completed() {});
}

fn once_lock(is_raced: bool) {
    static VALUE: OnceLock<usize> = OnceLock::new();
    two(is_raced, || assert_eq!(VALUE.set(1), Ok(())), || while VALUE.get() != Some(&1) {});
}

fn lazy_lock(is_raced: bool) {
    static VALUE: LazyLock<usize> = LazyLock::new(|| 1);
    let (given, is_given) = plain_mpsc::channel();
    let give = move || {
        assert_eq!(*VALUE, 1);
        given.send(()).unwrap();
    };
    two(is_raced, give, move || {
        is_given.recv().unwrap();
        assert_eq!(*VALUE, 1);
    });
}

fn flag(is_raced: bool) {
    static READY: AtomicBool = AtomicBool::new(false);
    two(is_raced, || READY.store(true, Ordering::Release), || while !READY.load(Ordering::Acquire) {});
}

/// The last one of several that count down comes after the others.
fn countdown(is_raced: bool) {
    static LEFT: AtomicUsize = AtomicUsize::new(2);
    let is_last = || LEFT.fetch_sub(1, Ordering::AcqRel) == 1;
    let give = move || assert!(!is_last());
    two(is_raced, give, move || {
        while LEFT.load(Ordering::Relaxed) > 1 {
            hint::spin_loop();
        }
        assert!(is_last());
    });
}

/// A lock that turns by an atomic.
fn spin_lock(is_raced: bool) {
    static HELD: AtomicUsize = AtomicUsize::new(0);
    let turn = |from, to| while HELD.compare_exchange(from, to, Ordering::AcqRel, Ordering::Acquire).is_err() {};
    two(is_raced, move || turn(0, 1), move || turn(1, 2));
}

fn pointer(is_raced: bool) {
    static VALUE: AtomicPtr<usize> = AtomicPtr::new(ptr::null_mut());
    let give = || VALUE.store(Box::into_raw(Box::new(1)), Ordering::SeqCst);
    two(is_raced, give, || while VALUE.load(Ordering::SeqCst).is_null() {});
}

fn park(is_raced: bool) {
    static GO: plain_sync::AtomicBool = plain_sync::AtomicBool::new(false);
    let taker = thread::spawn(|| {
        while !GO.load(plain_sync::Ordering::SeqCst) {
            thread::park();
        }
        read();
    });
    let parked = taker.thread().clone();
    giving(is_raced, || {
        GO.store(true, plain_sync::Ordering::SeqCst);
        parked.unpark();
    });
    taker.join().unwrap();
}

fn is_finished(is_raced: bool) {
    let giver: JoinHandle<()> = thread::spawn(move || {
        if !is_raced {
            write();
        }
    });
    while !giver.is_finished() {}
    let late = is_raced.then(|| thread::spawn(write));
    read();
    late.into_iter().for_each(|late| late.join().unwrap());
    giver.join().unwrap();
}

fn named_thread(is_raced: bool) {
    let giver = Builder::new().name("giver".into()).spawn(write).unwrap();
    if is_raced {
        read();
    }
    giver.join().unwrap();
    read();
}

/// A thread of a scope may start another one.
fn nested_scope(is_raced: bool) {
    thread::scope(|scope| {
        scope.spawn(|| {
            scope.spawn(write);
        });
        if is_raced {
            read();
        }
    });
    read();
}

fn token(is_raced: bool) {
    static READY: Token = Token::new();
    let (given, is_given) = plain_mpsc::channel();
    let give = move || {
        READY.before();
        given.send(()).unwrap();
    };
    two(is_raced, give, move || {
        is_given.recv().unwrap();
        READY.after();
    });
}

fn message(is_raced: bool) {
    let (given, is_given) = plain_mpsc::channel();
    two(is_raced, move || given.send(outgoing().unwrap()).unwrap(), move || incoming(&is_given.recv().unwrap()));
}

/// Whoever has the whole of a cell comes after who has written it.
fn whole_cell(is_raced: bool) {
    let (given, is_given) = plain_mpsc::channel();
    let cell = OnceLock::new();
    let give = move || {
        assert_eq!(cell.get_or_init(|| 1), &1);
        given.send(cell).unwrap();
    };
    two(is_raced, give, move || assert_eq!(is_given.recv().unwrap().into_inner(), Some(1)));
}

/// Runs futures by turns in this thread, and in another one.
fn waked_future(is_raced: bool) {
    struct Slot(Mutex<(bool, Option<Waker>)>);
    struct Waiting(Arc<Slot>);
    impl Future for Waiting {
        type Output = ();

        fn poll(self: Pin<&mut Self>, context: &mut Context<'_>) -> Poll<()> {
            let mut slot = self.0 .0.lock().unwrap();
            slot.1 = Some(context.waker().clone());
            if slot.0 {
                Poll::Ready(())
            } else {
                Poll::Pending
            }
        }
    }
    struct Unparking(plain::Thread);
    impl Wake for Unparking {
        fn wake(self: std::sync::Arc<Unparking>) {
            self.0.unpark();
        }
    }
    let (own, other) = shared(Slot(Mutex::new((false, None))));
    let give = move || {
        let waker = {
            let mut slot = own.0.lock().unwrap();
            slot.0 = true;
            slot.1.take()
        };
        waker.into_iter().for_each(Waker::wake);
    };
    let take = move || {
        let waker = Waker::from(std::sync::Arc::new(Unparking(plain::current())));
        let mut waiting = Box::pin(future::traced("order", async move {
            Waiting(other).await;
            read();
        }));
        while waiting.as_mut().poll(&mut Context::from_waker(&waker)).is_pending() {
            plain::park_timeout(Duration::from_millis(100));
        }
    };
    let giver = thread::spawn(move || {
        plain::sleep(Duration::from_millis(30)); // The other one is polled before.
        giving(is_raced, give);
    });
    take();
    giver.join().unwrap();
}

/// What is local to a thread goes with it, and may acquire a lock then. Whoever joins the thread comes after that.
fn local_drop(is_raced: bool) {
    static LOCK: Mutex<usize> = Mutex::new(0);
    struct Local;
    impl Drop for Local {
        fn drop(&mut self) {
            *LOCK.lock().unwrap() += 1;
            touch("stock", true); // race: raced
        }
    }
    thread_local!(static LOCAL: RefCell<Option<Local>> = const { RefCell::new(None) });
    let giver = thread::spawn(|| LOCAL.with_borrow_mut(|local| *local = Some(Local)));
    if is_raced {
        read();
    }
    giver.join().unwrap();
    read();
    assert_eq!(*LOCK.lock().unwrap(), 1);
}

fn end_of_channel(is_raced: bool) {
    let (sender, receiver) = channel::<usize>();
    two(is_raced, move || drop(sender), move || assert!(receiver.recv().is_err()));
}

fn forced_once(is_raced: bool) {
    static ONCE: Once = Once::new();
    let (given, is_given) = plain_mpsc::channel();
    let give = move || {
        ONCE.call_once_force(|_| {});
        given.send(()).unwrap();
    };
    two(is_raced, give, move || {
        is_given.recv().unwrap();
        ONCE.call_once(|| panic!("it was done"));
    });
}

type Program = (&'static str, fn(bool));

const PROGRAMS: [Program; 27] = [
    ("condition", condition),
    ("timed_condition", timed_condition),
    ("read_lock", read_lock),
    ("polled_flag", polled_flag),
    ("lazy_value", lazy_value),
    ("queue", queue),
    ("bounded_queue", bounded_queue),
    ("receipt", receipt),
    ("barrier", barrier),
    ("once", once),
    ("once_lock", once_lock),
    ("lazy_lock", lazy_lock),
    ("flag", flag),
    ("countdown", countdown),
    ("spin_lock", spin_lock),
    ("pointer", pointer),
    ("park", park),
    ("is_finished", is_finished),
    ("named_thread", named_thread),
    ("nested_scope", nested_scope),
    ("token", token),
    ("message", message),
    ("whole_cell", whole_cell),
    ("waked_future", waked_future),
    ("local_drop", local_drop),
    ("end_of_channel", end_of_channel),
    ("forced_once", forced_once),
];

/// Runs one of them, or gives the names of all.
pub fn run(name: &str, is_raced: bool) {
    match PROGRAMS.iter().find(|program| program.0 == name) {
        Some(program) => program.1(is_raced),
        None => PROGRAMS.iter().for_each(|program| println!("{}", program.0)),
    }
}

/// Many locks that one thread has, and a lock with readers that nobody writes under, leave next to nothing in the trace.
pub fn free_locks() {
    let locks: Vec<Mutex<()>> = (0..OBJECTS).map(|_| Mutex::new(())).collect();
    for _ in 0..2 {
        for lock in &locks {
            drop(lock.lock());
        }
        touch("stock", true);
    }
    let (own, other) = shared(RwLock::new(()));
    let sections = |lock: Arc<RwLock<()>>| {
        move || {
            for _ in 0..SECTIONS {
                let _held = lock.read().unwrap();
                touch("stock", false);
            }
        }
    };
    thread::spawn(sections(own)).join().unwrap();
    thread::spawn(sections(other.clone())).join().unwrap();
    drop(other.write());
    let lock = Mutex::new(());
    for _ in 0..SECTIONS {
        drop(lock.lock());
        touch("stock", true); // Outside the lock.
    }
    for _ in 0..SECTIONS {
        drop(Mutex::new(()).lock()); // A lock that is no more hands over nothing.
        touch("stock", true);
    }
}

fn racing() {
    let writer = thread::spawn(|| touch("stock", true)); // race: ends
    touch("stock", true); // race: ends
    writer.join().unwrap();
}

/// Ends in this way, right behind a race.
pub fn end(how: &str) {
    if how == "dropped" {
        let _ = itc_trace::begin(); // The trace goes on.
    }
    racing();
    println!("raced");
    match how {
        "exit" => exit(0),
        "abort" => abort(),
        "finish" => {
            itc_trace::finish();
            touch("stock", true);
            // SAFETY: it takes a number, and does not return.
            unsafe { _exit(0) }
        }
        "panic" => panic!("on purpose"),
        "sleep" => plain::sleep(Duration::from_secs(60)),
        "goes_on" => {
            plain::spawn(|| loop {
                touch("own", true); // The process ends in the middle.
            });
        }
        _ => {}
    }
}

extern "C" {
    fn _exit(status: i32) -> !;
}

/// Starts itself as a child process, and waits for it.
pub fn parent(how: &str) {
    touch_across("row", true);
    let mut kid = process::spawn(Command::new(env::current_exe().unwrap()).args(["kid", ""])).unwrap();
    if how == "raced" {
        touch_across("row", true); // race: parent
    }
    assert!(kid.wait().unwrap().success());
    touch_across("row", true);
    touch("own", true);
    assert!(process::status(Command::new("true").arg("own")).unwrap().success());
}

/// It starts a process of its own by plain means, which is another one.
pub fn kid() {
    touch_across("row", true); // race: parent
    touch("own", true);
    assert!(Command::new(env::current_exe().unwrap()).arg("stranger").status().unwrap().success());
}

pub fn stranger() {
    touch("own", true);
}

mod plain_sync {
    pub use std::sync::atomic::{AtomicBool, Ordering};
}
