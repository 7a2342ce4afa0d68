//! The functions that lines of the program stand in.

use std::backtrace::Backtrace;
use std::collections::HashMap;
use std::panic::Location;
use std::sync::{Arc, Mutex, PoisonError};

type Functions = HashMap<usize, Option<Arc<str>>>;

static FUNCTIONS: Mutex<Option<Functions>> = Mutex::new(None);

/// The function that calls from this line, as far as the program has that in it. Each line is looked for once.
pub(crate) fn function_at(site: &'static Location<'static>) -> Option<Arc<str>> {
    let key = site as *const _ as usize;
    let known = FUNCTIONS.lock().unwrap_or_else(PoisonError::into_inner).get_or_insert_with(HashMap::new).get(&key).cloned();
    known.unwrap_or_else(|| {
        let found = function_in(&Backtrace::force_capture().to_string(), site).map(Arc::from);
        FUNCTIONS.lock().unwrap_or_else(PoisonError::into_inner).get_or_insert_with(HashMap::new).insert(key, found.clone());
        found
    })
}

/// The function whose frame is at the line. A frame is told by its number and its function, and its place by the next line.
fn function_in(frames: &str, site: &Location<'_>) -> Option<String> {
    let place = format!("{}:{}:", site.file(), site.line());
    let mut function = None;
    for line in frames.lines() {
        if let Some(at) = line.trim_start().strip_prefix("at ") {
            if at.trim_start_matches("./").ends_with(&place)
                || at.contains(&format!("/{place}"))
                || at.trim_start_matches("./").starts_with(&place)
            {
                return function.map(without_hash);
            }
        } else if let Some((_, name)) = line.trim_start().split_once(": ") {
            function = Some(name);
        }
    }
    None
}

/// The name of a function without the number that the compiler adds.
fn without_hash(name: &str) -> String {
    match name.rsplit_once("::h") {
        Some((name, hash)) if hash.len() == 16 && hash.bytes().all(|digit| digit.is_ascii_hexdigit()) => name.into(),
        _ => name.into(),
    }
}
