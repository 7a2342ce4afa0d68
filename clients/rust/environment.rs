//! Where a process reports to, as whoever starts it says in its environment.

use crate::tracer::Width;
use std::fs::{File, OpenOptions};
use std::io;

/// How many letters and digits of a process's name stand before the names of its threads.
const MOST_TAG: usize = 8;
/// How long the name of a task may be.
pub(crate) const MOST_NAME: usize = 24;
/// Names the process that starts a child, and the task, the tag and the name of the child, whose task has begun already. A process that
/// such a child starts by other means finds the same there, and is another one's child.
const CHILD: &str = "ITC_TRACE_CHILD";
/// Names the file of the journal.
pub(crate) const JOURNAL: &str = "ITC_TRACE_JOURNAL";

/// What a process is that another one has started as a child of its own.
#[derive(Clone, Debug, PartialEq, Eq)]
pub(crate) struct Child {
    pub task: String,
    pub tag: String,
    pub name: String,
}

impl Child {
    /// The variable that tells a new process so.
    pub fn variable(&self) -> (&'static str, String) {
        (CHILD, format!("{} {} {} {}", std::process::id(), self.task, self.tag, self.name))
    }

    fn read(told: &str) -> Option<Child> {
        let mut words = told.splitn(4, ' ').map(String::from);
        words.next().filter(|parent| *parent == parent_process())?;
        Some(Child { task: words.next()?, tag: words.next()?, name: words.next()? })
    }
}

#[cfg(unix)]
fn parent_process() -> String {
    std::os::unix::process::parent_id().to_string()
}

#[cfg(not(unix))]
fn parent_process() -> String {
    String::new()
}

pub(crate) struct Environment {
    pub port: u16,
    pub tenant: String,
    /// The name of the process, as it was given.
    pub process: String,
    /// Whether the relay divides a long run into parts.
    pub has_parts: bool,
    pub width: Width,
    pub child: Option<Child>,
    journal: Option<String>,
}

impl Environment {
    /// None if it names no port.
    pub fn read() -> io::Result<Option<Environment>> {
        let named = |name: &str| std::env::var(name).ok().filter(|value| !value.is_empty());
        let Some(port) = named("ITC_TRACE_PORT") else { return Ok(None) };
        let port = port.parse().ok().filter(|port| *port > 0).ok_or_else(|| {
            let reason = format!("ITC_TRACE_PORT is {port}, which is no port: set it to a number from 1 to 65535");
            io::Error::new(io::ErrorKind::InvalidInput, reason)
        })?;
        let child = named(CHILD).as_deref().and_then(Child::read);
        let process = child.as_ref().map(|child| child.name.clone()).or_else(|| named("ITC_TRACE_PROCESS"));
        Ok(Some(Environment {
            port,
            tenant: named("ITC_TRACE_TENANT").unwrap_or("trace".into()),
            process: process.unwrap_or("p".into()),
            has_parts: named("ITC_TRACE_PARTS").is_some(),
            width: Width::read()?,
            child,
            journal: named(JOURNAL),
        }))
    }

    /// A file that was not there, if a journal is wanted. A process that is started again does not overwrite its first one, and a child
    /// adds to that of its parent.
    pub fn open_journal(&self) -> io::Result<Option<(File, String)>> {
        let Some(path) = &self.journal else { return Ok(None) };
        if self.child.is_some() {
            return Ok(Some((OpenOptions::new().append(true).create(true).open(path)?, path.clone())));
        }
        for number in 1.. {
            let tried = if number == 1 { path.to_string() } else { format!("{path}.{number}") };
            match OpenOptions::new().append(true).create_new(true).open(&tried) {
                Err(error) if error.kind() == io::ErrorKind::AlreadyExists => continue,
                opened => return Ok(Some((opened?, tried))),
            }
        }
        unreachable!("some name is free")
    }
}

/// The name of a task for a process of this name.
pub(crate) fn task_of(process: &str) -> String {
    let letters: String = process.chars().map(|next| if next.is_ascii_alphanumeric() { next } else { '_' }).collect();
    match letters.trim_matches('_') {
        "" => "p".into(),
        name => name.chars().take(MOST_NAME).collect(),
    }
}

/// What the names of the process's other tasks begin with.
pub(crate) fn tag_of(process: &str) -> String {
    let letters: String = process.chars().filter(char::is_ascii_alphanumeric).take(MOST_TAG).collect();
    if letters.is_empty() {
        "p".into()
    } else {
        letters
    }
}
