//! A process that reports by hand where its environment says.

use crate::environment::{tag_of, Environment};
use crate::journal::{self, Event, Row, Time};
use crate::session::{Error, Kind, Session};
use std::fs::File;
use std::io::Write;
use std::panic::Location;
use std::sync::Mutex;

const TASK_EXISTS: u16 = 402;

/// A process that reports where its environment says, by `ITC_TRACE_PORT`, `ITC_TRACE_TENANT`, `ITC_TRACE_PROCESS` and
/// `ITC_TRACE_JOURNAL`.
///
/// It has a task of its own under `root`, and a journal by which `python3 -m itc_trace` lists the races. Any thread may use it.
pub struct Reporter {
    /// The task of this process, and the first part of the names of its other tasks.
    pub task: String,
    process: String,
    session: Session,
    journal: Mutex<Option<File>>,
}

impl Reporter {
    /// None if the environment names no port.
    pub fn from_environment() -> Result<Option<Reporter>, Error> {
        let Some(environment) = Environment::read()? else { return Ok(None) };
        let journal = environment.open_journal()?.map(|(journal, _)| journal);
        let session = Session::new(Kind::Report, &environment.tenant, environment.port)?;
        let mut reporter = Reporter { task: String::new(), process: environment.process.clone(), session, journal: Mutex::new(journal) };
        reporter.begin(&tag_of(&environment.process))?;
        Ok(Some(reporter))
    }

    fn begin(&mut self, name: &str) -> Result<(), Error> {
        for number in 1.. {
            let tried = if number == 1 { name.to_string() } else { format!("{name}{number}") };
            match self.session.spawn("root", &tried) {
                Err(Error::Refused { code: TASK_EXISTS, .. }) => continue,
                told => {
                    let row = Row::new(&"root".into(), "spawn", None, format!("start process {tried}"));
                    self.write(told?, &Row { time: journal::now(), ..row })?;
                }
            }
            if number > 1 {
                self.process += &format!(" {number}"); // What is its own is not that of the first one.
            }
            if let Some(journal) = self.journal.get_mut().unwrap() {
                journal.write_all(journal::process(&self.process, &tried).as_bytes())?;
            }
            self.task = tried;
            break;
        }
        Ok(())
    }

    /// The name of another task of this process, as of a thread.
    pub fn name(&self, of: &str) -> String {
        format!("{}_{of}", self.task)
    }

    /// The task reads or writes the thing, which is of this process, at the line that calls this.
    #[track_caller]
    pub fn touch(&self, task: &str, thing: &str, writes: bool) -> Result<u64, Error> {
        self.touch_across(task, &format!("{thing} of {}", self.process), writes)
    }

    /// The same of a thing that all processes call by this name, as a file.
    #[track_caller]
    pub fn touch_across(&self, task: &str, thing: &str, writes: bool) -> Result<u64, Error> {
        let kind = if writes { "write" } else { "read" };
        self.at(journal::now(), self.session.local(task), task, kind, Some(thing), &format!("{kind} {thing}"))
    }

    #[track_caller]
    pub fn spawn(&self, task: &str, child: &str) -> Result<u64, Error> {
        self.at(journal::now(), self.session.spawn(task, child), task, "spawn", None, &format!("start {child}"))
    }

    #[track_caller]
    pub fn send(&self, task: &str, message: &str) -> Result<u64, Error> {
        self.at(journal::now(), self.session.send(task, message), task, "send", None, &format!("send {message}"))
    }

    #[track_caller]
    pub fn recv(&self, task: &str, message: &str) -> Result<u64, Error> {
        self.at(journal::now(), self.session.recv(task, message), task, "recv", None, &format!("receive {message}"))
    }

    #[track_caller]
    pub fn end(&self, task: &str) -> Result<u64, Error> {
        self.at(journal::now(), self.session.end(task), task, "end", None, "end")
    }

    #[track_caller]
    pub fn join(&self, task: &str, child: &str) -> Result<u64, Error> {
        self.at(journal::now(), self.session.join(task, child), task, "join", None, &format!("join {child}"))
    }

    /// Ends the session. The journal says that all was reported.
    pub fn close(self) -> Result<(), Error> {
        match self.journal.into_inner().unwrap() {
            Some(mut journal) => Ok(journal.write_all(journal::END.as_bytes())?),
            None => Ok(()),
        }
    }

    /// Writes the row of an event, by what the collector has answered after this time.
    #[track_caller]
    fn at(
        &self,
        time: Time,
        told: Result<u64, Error>,
        task: &str,
        kind: &'static str,
        thing: Option<&str>,
        label: &str,
    ) -> Result<u64, Error> {
        let event = told?;
        let row = Row { thing: thing.map(String::from), time, ..Row::new(&task.into(), kind, Some(Location::caller()), label.into()) };
        self.write(event, &row)?;
        Ok(event)
    }

    fn write(&self, event: u64, row: &Row) -> Result<(), Error> {
        match self.journal.lock().unwrap().as_mut() {
            Some(journal) => Ok(journal.write_all(row.text(Event::first(event), "", None).as_bytes())?),
            None => Ok(()),
        }
    }
}
