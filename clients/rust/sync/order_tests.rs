//! What is released or dropped is reported before it is. Else another thread may be next, and not come after it.

use super::mpsc::{channel, sync_channel, TryRecvError};
use super::{Condvar, Mutex, RwLock};
use crate::traced::{begin, on, MARKING};
use std::io::{BufRead, BufReader, Write};
use std::net::{TcpListener, TcpStream};
use std::sync::{mpsc, Once};
use std::thread;
use std::time::{Duration, Instant};

/// A thread that reports too late is done with the act by then.
const LONG_ENOUGH: Duration = Duration::from_millis(500);

/// Whether a thread that has made this is done with the act while no place can be marked.
fn is_early<G>(make: impl FnOnce() -> G + Send, act: impl FnOnce(G) + Send, is_done: impl Fn() -> bool) -> bool {
    let ((ready, is_ready), (go, goes)) = (mpsc::channel(), mpsc::channel());
    thread::scope(|scope| {
        scope.spawn(move || {
            let made = make();
            ready.send(()).unwrap();
            goes.recv().unwrap();
            act(made);
        });
        is_ready.recv().unwrap();
        let _paused = MARKING.write();
        go.send(()).unwrap();
        let begun = Instant::now();
        while !is_done() && begun.elapsed() < LONG_ENOUGH {
            thread::sleep(Duration::from_millis(1));
        }
        is_done()
    })
}

/// Begins the trace of this process, at a collector that takes all reports.
fn begin_trace() {
    static BEGUN: Once = Once::new();
    BEGUN.call_once(|| {
        let door = TcpListener::bind("127.0.0.1:0").unwrap();
        std::env::set_var("ITC_TRACE_PORT", door.local_addr().unwrap().port().to_string());
        thread::spawn(move || answer(door.accept().unwrap().0));
        begin();
    });
    assert!(on().is_some());
}

fn answer(mut stream: TcpStream) {
    let lines = BufReader::new(stream.try_clone().unwrap()).lines().skip(1); // The opening has no reply of its own.
    for (number, line) in lines.map_while(Result::ok).enumerate() {
        let reply = if line == "count" { "200 0 1 0".into() } else { format!("201 {number}") };
        writeln!(stream, "{reply}").unwrap();
    }
}

#[test]
fn a_lock_is_told_to_be_released_before_it_is() {
    begin_trace();
    let lock = Mutex::new(());
    assert!(!is_early(|| lock.lock().unwrap(), drop, || lock.mutex.try_lock().is_ok()));
}

#[test]
fn a_lock_with_readers_is_told_to_be_released_before_it_is() {
    begin_trace();
    let lock = RwLock::new(());
    assert!(!is_early(|| lock.write().unwrap(), drop, || lock.lock.try_read().is_ok()));
    assert!(!is_early(|| lock.read().unwrap(), drop, || lock.lock.try_write().is_ok()));
}

#[test]
fn who_waits_for_a_condition_tells_that_the_lock_is_released_before_it_is() {
    begin_trace();
    let (lock, condition) = (Mutex::new(()), Condvar::new());
    let wait = |held| drop(condition.wait_timeout(held, 2 * LONG_ENOUGH));
    assert!(!is_early(|| lock.lock().unwrap(), wait, || lock.mutex.try_lock().is_ok()));
}

#[test]
fn the_end_of_a_sender_is_told_before_it_is_dropped() {
    begin_trace();
    let (sender, receiver) = channel::<()>();
    assert!(!is_early(|| sender, drop, || receiver.try_recv() == Err(TryRecvError::Disconnected)));
    let (sender, receiver) = sync_channel::<()>(1);
    assert!(!is_early(|| sender, drop, || receiver.try_recv() == Err(TryRecvError::Disconnected)));
}
