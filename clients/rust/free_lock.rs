//! What a turn of a lock costs that nobody else wants: that of the standard library, and that which is wrapped, by turns, in nanoseconds
//! of the processor's time. `clients/measure.py` runs it with a trace and without one.

use itc_trace::sync as traced;
use std::hint::black_box;
use std::sync as plain;
use std::time::Duration;

const TURNS: u32 = 1_000_000;
const ROUNDS: usize = 9;
const OF_THE_THREAD: i32 = 3;

extern "C" {
    fn clock_gettime(clock: i32, time: *mut i64) -> i32;
}

/// The processor's time of this thread.
fn used() -> Duration {
    let mut time = [0i64; 2];
    // SAFETY: The clock writes seconds and nanoseconds, each of eight bytes.
    unsafe { clock_gettime(OF_THE_THREAD, time.as_mut_ptr()) };
    Duration::new(time[0] as u64, time[1] as u32)
}

fn measured(mut turn: impl FnMut()) -> f64 {
    let begun = used();
    (0..TURNS).for_each(|_| turn());
    (used() - begun).as_secs_f64() * 1e9 / f64::from(TURNS)
}

fn by_turns(name: &str, mut own: impl FnMut(), mut wrapped: impl FnMut()) {
    let mut least = [f64::MAX; 2];
    for _ in 0..ROUNDS {
        least = [least[0].min(measured(&mut own)), least[1].min(measured(&mut wrapped))];
    }
    println!("{name} {:.1} {:.1}", least[0], least[1]);
}

fn main() {
    itc_trace::touch("value", true);
    if std::env::args().nth(1).as_deref() == Some("lock") {
        let (own, wrapped) = (plain::Mutex::new(0u64), traced::Mutex::new(0u64));
        by_turns("lock", || *own.lock().unwrap() += 1, || *wrapped.lock().unwrap() += 1);
    } else {
        let (own, wrapped) = (plain::RwLock::new(0u64), traced::RwLock::new(0u64));
        by_turns("reader", || _ = black_box(*own.read().unwrap()), || _ = black_box(*wrapped.read().unwrap()));
    }
}
