//! The end of the process, however it comes: what was noted is reported by then.

#[cfg(unix)]
mod unix {
    use std::ffi::c_int;
    use std::sync::atomic::{AtomicBool, Ordering};
    use std::time::{Duration, Instant};

    const SIGINT: c_int = 2;
    const SIGABRT: c_int = 6;
    const SIGTERM: c_int = 15;
    const DEFAULT: usize = 0;
    const FAILED: usize = usize::MAX;
    const LOOK_AGAIN: Duration = Duration::from_millis(1);
    const ABORT_WAIT: Duration = Duration::from_secs(5);

    extern "C" {
        fn atexit(call: extern "C" fn()) -> c_int;
        fn signal(number: c_int, handler: usize) -> usize;
        fn getpid() -> c_int;
        fn kill(process: c_int, number: c_int) -> c_int;
    }

    static IS_REPORTED: AtomicBool = AtomicBool::new(false);

    /// Has the trace end with the process.
    pub fn watch() {
        // SAFETY: these functions of the C library take plain functions, which are there as long as the process is.
        unsafe {
            atexit(at_exit);
            for number in [SIGINT, SIGABRT, SIGTERM] {
                let before = signal(number, handle as extern "C" fn(c_int) as usize);
                if before != DEFAULT && before != FAILED {
                    signal(number, before); // The program has a handler of its own, or ignores it.
                }
            }
        }
    }

    extern "C" fn at_exit() {
        let _ = std::panic::catch_unwind(crate::traced::end_of_process);
    }

    /// Only tells the thread that reports. Whoever aborts waits for it, and any other thread goes on meanwhile.
    extern "C" fn handle(number: c_int) {
        let Some(tracer) = crate::traced::begun() else { return let_die(number) };
        tracer.is_ended_by(number);
        if number == SIGABRT {
            let begun = Instant::now();
            while !IS_REPORTED.load(Ordering::Acquire) && begun.elapsed() < ABORT_WAIT {
                std::thread::sleep(LOOK_AGAIN);
            }
        }
    }

    /// Lets the signal have its way.
    pub fn is_reported(number: c_int) {
        IS_REPORTED.store(true, Ordering::Release);
        if number != SIGABRT {
            let_die(number);
        }
    }

    fn let_die(number: c_int) {
        // SAFETY: as above.
        unsafe {
            signal(number, DEFAULT);
            kill(getpid(), number);
        }
    }

    pub fn name_of(number: c_int) -> &'static str {
        match number {
            SIGINT => "SIGINT",
            SIGABRT => "SIGABRT",
            SIGTERM => "SIGTERM",
            _ => "a signal",
        }
    }
}

#[cfg(not(unix))]
mod unix {
    pub fn watch() {}

    pub fn is_reported(_: i32) {}

    pub fn name_of(_: i32) -> &'static str {
        "a signal"
    }
}

pub(crate) use unix::{is_reported, name_of, watch};
