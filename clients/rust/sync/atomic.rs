//! Atomics. Whoever reads by `Acquire` or `SeqCst` comes after whoever has written what is read, by `Release` or `SeqCst`.
//!
//! What is read or written by `Relaxed` gives no order, and no more does a fence.

use crate::journal::Site;
use crate::place::{Gives, What};
use crate::traced::{mark, on, Givers, Marks};
use std::fmt::{self, Debug};
use std::panic::Location;

pub use std::sync::atomic::{compiler_fence, fence, Ordering};

static WRITE: What = What::new("atomic", "write atomic", "read atomic");

fn acquires(order: Ordering) -> bool {
    matches!(order, Ordering::Acquire | Ordering::AcqRel | Ordering::SeqCst)
}

fn releases(order: Ordering) -> bool {
    matches!(order, Ordering::Release | Ordering::AcqRel | Ordering::SeqCst)
}

fn acquire(marks: &Marks, order: Ordering, site: Site) {
    if let Some(tracer) = on().filter(|_| acquires(order)) {
        marks.take(tracer, site);
    }
}

fn release(marks: &mut Marks, order: Ordering, site: Site) {
    if let (Some(mark), Some(tracer)) = (releases(order).then(|| mark(Gives::Order(&WRITE), site)).flatten(), on()) {
        marks.put(tracer, mark);
    }
}

/// Reads. The order is of the value that is read.
fn load<T>(givers: &Givers, order: Ordering, site: Site, read: impl FnOnce() -> T) -> T {
    if on().is_none() {
        return read();
    }
    givers.with(|marks| {
        let value = read();
        acquire(marks, order, site);
        value
    })
}

/// Writes. Whoever reads that comes after nobody who has written before.
fn store(givers: &Givers, order: Ordering, site: Site, write: impl FnOnce()) {
    if on().is_none() {
        return write();
    }
    givers.with(|marks| {
        marks.clear();
        release(marks, order, site);
        write();
    });
}

/// Reads and writes in one. Whoever reads that comes after whoever has written before, too.
fn change<T>(givers: &Givers, order: Ordering, site: Site, change: impl FnOnce() -> T) -> T {
    if on().is_none() {
        return change();
    }
    givers.with(|marks| {
        acquire(marks, order, site);
        if acquires(order) && releases(order) {
            marks.clear(); // This place stands for all before.
        }
        release(marks, order, site);
        change()
    })
}

/// Reads, and writes if it is the value that is wanted.
fn exchange<T>(
    givers: &Givers,
    (success, failure): (Ordering, Ordering),
    site: Site,
    exchange: impl FnOnce() -> Result<T, T>,
) -> Result<T, T> {
    if on().is_none() {
        return exchange();
    }
    givers.with(|marks| {
        // Nobody reads what is written before this is over.
        let exchanged = exchange();
        match exchanged {
            Ok(_) => {
                acquire(marks, success, site);
                if acquires(success) && releases(success) {
                    marks.clear();
                }
                release(marks, success, site);
            }
            Err(_) => acquire(marks, failure, site),
        }
        exchanged
    })
}

macro_rules! atomic {
    ($name:ident, $value:ty $(, $of:ident)?) => {
        #[doc = concat!("As [`std::sync::atomic::", stringify!($name), "`].")]
        pub struct $name $(<$of>)? {
            value: std::sync::atomic::$name $(<$of>)?,
            givers: Givers,
        }

        impl $(<$of>)? $name $(<$of>)? {
            /// An atomic of this value.
            #[must_use]
            pub const fn new(value: $value) -> Self {
                Self { value: std::sync::atomic::$name::new(value), givers: Givers::new() }
            }

            /// Reads.
            #[track_caller]
            pub fn load(&self, order: Ordering) -> $value {
                load(&self.givers, order, Some(Location::caller()), || self.value.load(order))
            }

            /// Writes.
            #[track_caller]
            pub fn store(&self, value: $value, order: Ordering) {
                store(&self.givers, order, Some(Location::caller()), || self.value.store(value, order));
            }

            /// Writes, and gives what was there.
            #[track_caller]
            pub fn swap(&self, value: $value, order: Ordering) -> $value {
                change(&self.givers, order, Some(Location::caller()), || self.value.swap(value, order))
            }

            /// Writes if this is there. Gives what was there.
            #[track_caller]
            pub fn compare_exchange(
                &self,
                current: $value,
                new: $value,
                success: Ordering,
                failure: Ordering,
            ) -> Result<$value, $value> {
                exchange(&self.givers, (success, failure), Some(Location::caller()), || {
                    self.value.compare_exchange(current, new, success, failure)
                })
            }

            /// The same. It may fail for no reason.
            #[track_caller]
            pub fn compare_exchange_weak(
                &self,
                current: $value,
                new: $value,
                success: Ordering,
                failure: Ordering,
            ) -> Result<$value, $value> {
                self.compare_exchange(current, new, success, failure)
            }

            /// Writes what this makes of what is there, up to the time that nobody comes between.
            #[track_caller]
            pub fn fetch_update<F>(&self, success: Ordering, failure: Ordering, mut change: F) -> Result<$value, $value>
            where
                F: FnMut($value) -> Option<$value>,
            {
                let mut before = self.load(failure);
                while let Some(next) = change(before) {
                    match self.compare_exchange(before, next, success, failure) {
                        Err(other) => before = other,
                        exchanged => return exchanged,
                    }
                }
                Err(before)
            }

            /// The value, which nobody else has.
            #[track_caller]
            pub fn get_mut(&mut self) -> &mut $value {
                self.givers.take_away(Some(Location::caller()));
                self.value.get_mut()
            }

            /// The value.
            #[track_caller]
            pub fn into_inner(self) -> $value {
                self.givers.take(Some(Location::caller()));
                self.value.into_inner()
            }
        }

        impl $(<$of>)? Debug for $name $(<$of>)? {
            fn fmt(&self, f: &mut fmt::Formatter<'_>) -> fmt::Result {
                self.value.fmt(f)
            }
        }

        impl $(<$of>)? From<$value> for $name $(<$of>)? {
            fn from(value: $value) -> Self {
                Self::new(value)
            }
        }
    };
}

macro_rules! changes {
    ($name:ident, $value:ty: $($call:ident),*) => {
        impl $name {
            $(
                #[doc = concat!("As [`std::sync::atomic::", stringify!($name), "::", stringify!($call), "`].")]
                #[track_caller]
                pub fn $call(&self, value: $value, order: Ordering) -> $value {
                    change(&self.givers, order, Some(Location::caller()), || self.value.$call(value, order))
                }
            )*
        }

        impl Default for $name {
            fn default() -> Self {
                Self::new(<$value>::default())
            }
        }
    };
}

macro_rules! numbers {
    ($($name:ident of $value:ty),*) => {
        $(
            atomic!($name, $value);
            changes!($name, $value: fetch_add, fetch_sub, fetch_and, fetch_nand, fetch_or, fetch_xor, fetch_max, fetch_min);
        )*
    };
}

numbers!(
    AtomicI8 of i8, AtomicI16 of i16, AtomicI32 of i32, AtomicI64 of i64, AtomicIsize of isize, AtomicU8 of u8, AtomicU16 of u16,
    AtomicU32 of u32, AtomicU64 of u64, AtomicUsize of usize
);
atomic!(AtomicBool, bool);
changes!(AtomicBool, bool: fetch_and, fetch_nand, fetch_or, fetch_xor);
atomic!(AtomicPtr, *mut T, T);

impl AtomicBool {
    /// Writes the other value. Gives what was there.
    #[track_caller]
    pub fn fetch_not(&self, order: Ordering) -> bool {
        self.fetch_xor(true, order)
    }
}

impl<T> Default for AtomicPtr<T> {
    fn default() -> Self {
        Self::new(std::ptr::null_mut())
    }
}
