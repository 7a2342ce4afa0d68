//! The lines of a journal, which lead from the number of an event back to the program.

use crate::place::Kind;
use std::panic::Location;
use std::sync::Arc;
use std::time::{Duration, SystemTime, UNIX_EPOCH};

/// The last line of a journal whose process reported all that it noted.
pub(crate) const END: &str = "{\"end\":true}\n";

/// An event, by its number in its part of the trace.
#[derive(Clone, Copy, Debug, PartialEq, Eq)]
pub(crate) struct Event {
    number: u64,
    part: u64,
}

impl Event {
    /// One of a trace that is not divided, or of the first part.
    pub fn first(number: u64) -> Event {
        Event { number, part: 1 }
    }

    /// The event that was taken, as the reply says.
    pub fn of(reply: &str) -> Option<Event> {
        let (number, part) = reply.strip_prefix("201 ")?.split_once(' ').unwrap_or((&reply[4..], "1"));
        Some(Event { number: number.parse().ok()?, part: part.parse().ok()? })
    }
}

pub(crate) type Site = Option<&'static Location<'static>>;

/// A time since 1970. None if the clock of this process is set to one before.
pub(crate) type Time = Option<Duration>;

/// By the clock of this process.
pub(crate) fn now() -> Time {
    SystemTime::now().duration_since(UNIX_EPOCH).ok()
}

/// A lock, by its number in this process and the line that made it.
#[derive(Clone, Copy, Debug, PartialEq, Eq)]
pub(crate) struct LockName {
    pub number: u64,
    pub made: &'static Location<'static>,
}

impl LockName {
    /// What a person calls it.
    pub fn told(self) -> String {
        format!("lock ({}:{})", self.made.file(), self.made.line())
    }
}

/// A lock that a task holds or wants: where it acquires it, and whether others may read under it meanwhile.
#[derive(Clone, Copy, Debug)]
pub(crate) struct HeldLock {
    pub lock: LockName,
    pub at: Site,
    pub is_shared: bool,
}

/// What a journal says of one event, or of one of the touches that an event stands for.
#[derive(Clone, Debug)]
pub(crate) struct Row {
    pub task: Arc<str>,
    /// What was touched, and none of any other event.
    pub thing: Option<String>,
    pub kind: &'static str,
    pub site: Site,
    pub label: String,
    /// The function that touches.
    pub function: Option<Arc<str>>,
    /// The locks that the task holds.
    pub held: Vec<LockName>,
    /// The lock that a message hands over.
    pub lock: Option<(Kind, LockName)>,
    /// Those that the task holds, and last the one that it has waited for. There are none of any other event.
    pub acquired: Vec<HeldLock>,
    /// When the event was. None if another row tells it.
    pub time: Time,
}

impl Row {
    /// A row that tells neither a thing nor a time.
    pub fn new(task: &Arc<str>, kind: &'static str, site: Site, label: String) -> Row {
        Row {
            task: task.clone(),
            thing: None,
            kind,
            site,
            label,
            function: None,
            held: Vec::new(),
            lock: None,
            acquired: Vec::new(),
            time: None,
        }
    }

    /// The line of the journal. The prefix tells the locks of this process from those of others. A trace that may be divided needs the task
    /// or the message that the report names, if it names one.
    pub fn text(&self, event: Event, prefix: &str, of: Option<&str>) -> String {
        let thing = self.thing.as_deref().map_or("null".into(), quoted);
        let (file, line) = self.site.map_or(("null".into(), 0), |site| (quoted(site.file()), site.line()));
        let (task, label) = (quoted(&self.task), quoted(&self.label));
        let time = self.time.map_or(String::new(), |time| format!(",\"time\":{}.{:06}", time.as_secs(), time.subsec_micros()));
        let part = if event.part > 1 { format!(",\"part\":{}", event.part) } else { String::new() };
        let mut text = format!("{{\"event\":{}{part}{time},\"task\":{task},\"thing\":{thing},\"kind\":\"{}\"", event.number, self.kind);
        text += &format!(",\"file\":{file},\"line\":{line},\"label\":{label}");
        let lock = |lock: LockName| quoted(&format!("#{prefix}{} {}", lock.number, lock.told()));
        if let Some(function) = &self.function {
            text += &format!(",\"function\":{}", quoted(function));
        }
        if !self.held.is_empty() {
            let held: Vec<String> = self.held.iter().map(|held| lock(*held)).collect();
            text += &format!(",\"held\":[{}]", held.join(","));
        }
        if let Some((wanted, held)) = self.acquired.split_last() {
            let places: Vec<String> = held.iter().map(|one| three(one.at)).collect();
            text += &format!(",\"wants\":{},\"at\":[{}]", lock(wanted.lock), places.join(","));
            let shared = self.acquired.iter().enumerate().filter(|(_, one)| one.is_shared).map(|(number, _)| number.to_string());
            text += &format!(",\"shared\":[{}]", shared.collect::<Vec<_>>().join(","));
        }
        if let Some((kind, handed)) = self.lock {
            let key = if kind == Kind::Luck { "lock" } else { "guard" };
            text += &format!(",\"{key}\":{}", lock(handed));
        }
        if let Some(of) = of {
            text += &format!(",\"of\":{}", quoted(of));
        }
        text + "}\n"
    }
}

/// File and line of a place, whose function is not known.
fn three(site: Site) -> String {
    let (file, line) = site.map_or(("null".into(), 0), |site| (quoted(site.file()), site.line()));
    format!("[{file},{line},\"\"]")
}

/// The line that says what was not seen, and why.
pub(crate) fn unseen(cause: &str, reason: &str) -> String {
    format!("{{\"unseen\":{},\"text\":{}}}\n", quoted(cause), quoted(reason))
}

/// The line that says that a child process adds to the journal.
pub(crate) fn child_begun(tag: &str, how: &str) -> String {
    format!("{{\"child\":{},\"begun\":{}}}\n", quoted(tag), quoted(how))
}

/// The last line of a child process that reported all that it noted.
pub(crate) fn child_ended(tag: &str) -> String {
    format!("{{\"child\":{},\"ended\":true}}\n", quoted(tag))
}

/// The whole name of a process, and what the names of its tasks begin with.
pub(crate) fn process(name: &str, tag: &str) -> String {
    format!("{{\"process\":{},\"tag\":{}}}\n", quoted(name), quoted(tag))
}

fn quoted(text: &str) -> String {
    let mut quoted = String::from("\"");
    for next in text.chars() {
        match next {
            '"' | '\\' | '\0'..='\x1f' => quoted += &format!("\\u{:04x}", next as u32),
            _ => quoted.push(next),
        }
    }
    quoted + "\""
}
